#!/usr/bin/env python3
"""Brings the names of this repository's definitions and lemmas to snake case, by the table respell.tsv beside this script.

usage: python3 tools/respell.py [FOLDER]     rewrites the files of FOLDER (default: the repository) in place. Run it once: some new names are old names of other things

It was run once, when the repository came to a newer Rattle, right after that Rattle's own script. Each row of the table is an old name, a tab and the new
one. A name turns as a whole word: in antt and in the clauses and imports of Rattle sources everywhere but in strings; in a comment and in a page only
between backticks or in a fenced block. In a proof that walks a function's code the names of that file itself stay, and so do the names of steps.
"""

import os
import re
import sys

HERE = os.path.dirname(os.path.realpath(__file__))
# A row whose new name is an old name too is turned once: the table is applied in one pass.
TABLE = dict(line.rstrip("\n").split("\t") for line in open(os.path.join(HERE, "respell.tsv"), encoding="utf-8"))
WORD = re.compile(r"(?<![\w'-])[A-Za-z_][\w'-]*")
TICKS = re.compile(r"`[^`\n]*`")
FENCE = re.compile(r"^```.*?^```", re.S | re.M)
STRING = re.compile(r'"(?:\\.|[^"\\\n])*"')


def words(text, keep=lambda match: False):
    return WORD.sub(lambda m: m.group(0) if keep(m) else TABLE.get(m.group(0), m.group(0)), text)


def ticks(text):
    return TICKS.sub(lambda m: words(m.group(0)), text)


def split(text, mark):
    """The code and the comments of a text, in order: pairs (is_comment, piece)."""
    at = 0
    for m in re.finditer(r'"(?:\\.|[^"\\\n])*"|' + mark + r"[^\n]*", text):
        yield False, text[at : m.start()]
        yield True, m.group(0)
        at = m.end()
    yield False, text[at:]


def antt(text, walk):
    own = set(re.findall(r"(?m)^(?:pub )?([A-Za-z_][\w'-]*) : ", text)) if walk else set()
    aliases = set(re.findall(r" as (\w+)", text))

    def keep(m):
        if not walk:
            return False
        if m.group(0) in own:
            return True
        before = text_now[0][: m.start()]
        if before.endswith("."):
            head = re.search(r"([\w'-]+)(?:\.[\w'-]+)*\.$", before)
            return not (re.search(r"[a-z][A-Z]", m.group(0)) or (head and head.group(1) in aliases))
        return False

    out = []
    text_now = [""]
    for comment, piece in split(text, "--"):
        text_now[0] = piece
        out.append(piece if piece.startswith('"') else ticks(piece) if comment else words(piece, keep))
    return "".join(out)


def rattle(text):
    """Clauses, ghost items and imports turn; the code keeps its names."""
    out = []
    at = 0
    clause = re.compile(r"(?:requires|ensures)\*?\s*(?:\w+\s*)?\{|ghost use |ghost\s+\w+\s*[:=]\s*\{")
    for m in clause.finditer(text):
        if m.start() < at:
            continue
        out.append(plain(text[at : m.end()]))
        at = m.end()
        if m.group(0) == "ghost use ":
            end = text.index(";", at)
        else:
            depth, end = 1, at
            while depth:
                depth += {"{": 1, "}": -1}.get(text[end], 0)
                end += 1
        out.append(words(text[at:end]))
        at = end
    out.append(plain(text[at:]))
    return "".join(out)


def plain(text):
    return re.sub(r"//[^\n]*", lambda m: ticks(m.group(0)), text)


def page(text):
    at = 0
    out = []
    for m in FENCE.finditer(text):
        out += [ticks(text[at : m.start()]), words(m.group(0))]
        at = m.end()
    return "".join(out + [ticks(text[at:])])


def edit(text):
    return "".join(ticks(l) if l.startswith("#") else words(l) if not re.match(r"file:", l) else l for l in text.splitlines(keepends=True))


def turn(path):
    with open(path, encoding="utf-8") as f:
        text = f.read()
    name = os.path.basename(path)
    if name.endswith(".antt"):
        new = antt(text, name in ("Proof.antt", "Answers.antt", "Invariants.antt") and "/proofs/" in path and not path.endswith("/proofs/" + name))
    elif name.endswith(".rt"):
        new = rattle(text)
    elif name.endswith(".edit"):
        new = edit(text)
    else:
        new = page(text)
    if new != text:
        with open(path, "w", encoding="utf-8") as f:
            f.write(new)
        return 1
    return 0


def main(top):
    n = 0
    for folder, dirs, files in os.walk(top):
        dirs[:] = [d for d in dirs if d not in (".git", "out", "target")]
        for f in files:
            path = os.path.join(folder, f)
            if f.endswith((".antt", ".rt", ".edit")) or (f.endswith(".md") and "crates" not in folder):
                n += turn(path)
    print(f"respell: {n} files changed")


if __name__ == "__main__":
    main(sys.argv[1] if len(sys.argv) > 1 else os.path.dirname(HERE))
