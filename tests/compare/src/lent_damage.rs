//! Damage to what is lent: bytes changed, lengths cut, tables, books and messages against their limits.

use crate::draw::Draw;
use crate::lent_calls::{Buffer, Call, Lent};
use crate::site_bytes::{rows_end, span, HEARD, SITE_BYTES};

/// Changes a byte of what is lent at this place, by one bit, to a number at an edge, or to any.
fn change(draw: &mut Draw, buffer: &mut Buffer, at: usize) {
    let (bit, any) = (1 << draw.below(8), draw.byte());
    let edge = draw.pick(&[0, 1, 2, 5, 11, 12, 32, 33, 34, 64, 65, 255]);
    if let Some(byte) = buffer.lent_mut().get_mut(at) {
        *byte = draw.pick(&[*byte ^ bit, *byte ^ bit, edge, any]);
    }
}

/// Sets a byte of what is lent, where there is one at this place.
fn put(buffer: &mut Buffer, at: usize, byte: u8) {
    if let Some(place) = buffer.lent_mut().get_mut(at) {
        *place = byte;
    }
}

/// A place in a site, each of its parts equally often, and as often the last delivery.
fn place(draw: &mut Draw, site: &Buffer) -> usize {
    let site = site.lent();
    let recorded = site.get(4).map_or(0, |recorded| usize::from(*recorded));
    let end = if site.len() < SITE_BYTES { HEARD } else { rows_end(span(site)).min(SITE_BYTES) };
    let numbers = [(0, 1), (1, 2), (2, 4), (4, 6), (6, 8)];
    let tables = [(8, 40), (40, 56), (56, 312), (312, HEARD), (HEARD - 5, HEARD), (HEARD, end), (end, SITE_BYTES)];
    let parts = [&numbers[..], &tables].concat();
    match draw.below(parts.len() + 1) {
        part if part < parts.len() => draw.within(parts[part].0, parts[part].1 - 1),
        // A command that was delivered.
        _ => 312 + 5 * draw.below(recorded.min(64)),
    }
}

/// A site table cut, or with n, f or the mask out of their limits.
fn damage_table(draw: &mut Draw, table: &mut Buffer) {
    let pair = draw.pick(&[[5, 1], [6, 1], [10, 2], [11, 2], [16, 3], [1, 0], [0, 0], [12, 0], [255, 255]]);
    match draw.below(4) {
        0 => table.cut(draw.pick(&[0, 1, 1, 2, 3, 3])),
        1 => {
            let at = draw.below(4);
            change(draw, table, at);
        }
        2 => put(table, 0, draw.within(0, 12) as u8),
        _ => pair.into_iter().enumerate().for_each(|(at, byte)| put(table, at, byte)),
    }
}

/// A message that is received: cut, longer, or with another kind, round or set.
fn damage_message(draw: &mut Draw, message: &mut Buffer) {
    let any = draw.byte();
    match draw.below(6) {
        0 => message.cut(draw.pick(&[0, 1, 2, 9, 9])),
        1 => {
            let more = draw.pick(&[1, 1, 8, 10]);
            *message = Buffer::new(&[message.lent(), &vec![any; more]].concat(), draw.byte());
        }
        2 => put(message, 0, draw.pick(&[0, 3, 255, any])),
        3 => put(message, 1, draw.pick(&[0, 34, 255, any])),
        _ => {
            let at = draw.within(2, 9);
            change(draw, message, at);
        }
    }
}

/// What this call is about: the table or book that it judges, the message that it brings, the room for its outputs.
fn damage_own(draw: &mut Draw, call: &Call, lent: &mut Lent) {
    match call {
        Call::JudgeTable => damage_table(draw, &mut lent.table),
        Call::JudgeBook => damage_book(draw, lent),
        Call::Receive { .. } => damage_message(draw, &mut lent.message),
        Call::Turn { .. } if draw.percent(50) => lent.message.cut(draw.pick(&[0, 1, 9, 9, 10])),
        Call::Turn { .. } => lent.entry.cut(draw.pick(&[0, 1, 17, 17, 18])),
        _ => lent.out.cut(draw.pick(&[0, 4, 5, 7])),
    }
}

/// A byte of the book changed, its end cut, or a command added, at times the 65th.
fn damage_book(draw: &mut Draw, lent: &mut Lent) {
    let length = lent.book.length();
    match draw.below(4) {
        0 => lent.book.cut(draw.below(length + 1)),
        1 => lent.book.cut(length.saturating_sub(2)),
        2 => {
            let more = draw.pick(&[1, 2, 64]);
            let longer = [lent.book.lent(), &[3, 31].repeat(more)].concat();
            lent.book = Buffer::new(&longer, draw.byte());
        }
        _ => {
            let at = draw.below(length);
            change(draw, &mut lent.book, at);
        }
    }
}

fn damage_log(draw: &mut Draw, lent: &mut Lent) {
    let (length, entries) = (lent.log.length(), lent.log.length() / 18);
    match draw.below(5) {
        0 => lent.log.cut(length - draw.below(length.min(18) + 1)),
        1 => lent.log.cut(18 * draw.below(entries + 1)),
        2 => {
            let at = 18 * draw.below(entries) + draw.below(2);
            change(draw, &mut lent.log, at);
        }
        3 => {
            let at = draw.below(length);
            change(draw, &mut lent.log, at);
        }
        _ => repeat_entry(draw, lent),
    }
}

/// Adds an entry that the log has already, so that two of a site and round become three.
fn repeat_entry(draw: &mut Draw, lent: &mut Lent) {
    let entries: Vec<&[u8]> = lent.log.lent().chunks_exact(18).collect();
    if entries.is_empty() {
        return;
    }
    let entry = draw.pick(&entries);
    let longer = [lent.log.lent(), entry, entry].concat();
    lent.log = Buffer::new(&longer, draw.byte());
}

/// Damages one part of what is lent to a call.
pub fn damage(draw: &mut Draw, call: &Call, lent: &mut Lent) {
    match draw.below(13) {
        0..=3 => {
            let at = place(draw, &lent.site);
            change(draw, &mut lent.site, at);
        }
        4 => {
            let at = draw.below(SITE_BYTES);
            change(draw, &mut lent.site, at);
        }
        5 => lent.site.cut(draw.pick(&[SITE_BYTES - 1, SITE_BYTES - 1, HEARD, 56, 1, 0])),
        6 | 7 => damage_own(draw, call, lent),
        8 => damage_table(draw, &mut lent.table),
        9 | 10 => damage_book(draw, lent),
        _ => damage_log(draw, lent),
    }
}

#[cfg(test)]
mod tests {
    use super::*;
    use crate::lent_draw;
    use std::collections::BTreeMap;

    /// How often each number was met, by what it is of.
    type Met = BTreeMap<(&'static str, usize), usize>;

    fn add_message(met: &mut Met, message: &Buffer) {
        let mut add = |what, number| *met.entry((what, number)).or_default() += 1;
        add("length of a message", message.length());
        if let [kind, round, ..] = *message.lent() {
            add("kind", usize::from(kind));
            match kind {
                1 => add("round of an acknowledgment", usize::from(round)),
                2 => add("round of a check message", usize::from(round)),
                _ => {}
            }
        }
    }

    fn add(met: &mut Met, call: &Call, lent: &Lent) {
        let mut add = |what, number| *met.entry((what, number)).or_default() += 1;
        match call {
            Call::JudgeTable => add("length of a table that is judged", lent.table.length()),
            _ => add("length of a table", lent.table.length()),
        }
        match call {
            Call::Receive { .. } => add_message(met, &lent.message),
            Call::Turn { .. } => {
                add("room for a message", lent.message.length());
                add("room for an entry", lent.entry.length());
            }
            _ => {}
        }
    }

    fn met() -> Met {
        let mut met = Met::new();
        for place in 0..4_000 {
            let mut draw = Draw::new(11, place);
            let scene = lent_draw::scene(&mut draw);
            for _ in 0..10 {
                let call = lent_draw::call(&mut draw, &scene);
                let mut lent = scene.lent(&mut draw, &call);
                damage(&mut draw, &call, &mut lent);
                add(&mut met, &call, &lent);
            }
        }
        met
    }

    #[test]
    fn every_edge_is_met() {
        let met = met();
        let edges: [(&str, &[usize]); 8] = [
            ("length of a table that is judged", &[0, 1, 2, 3, 4, 5]),
            ("length of a table", &[0, 1, 2, 3, 9]),
            ("length of a message", &[0, 1, 9, 10, 11, 20]),
            ("kind", &[0, 1, 2, 3, 255]),
            ("round of an acknowledgment", &[0, 1, 33, 34, 255]),
            ("round of a check message", &[0, 1, 33, 34, 255]),
            ("room for a message", &[0, 9, 10, 11]),
            ("room for an entry", &[0, 17, 18, 19]),
        ];
        for (what, numbers) in edges {
            for number in numbers {
                let times = met.get(&(what, *number)).copied().unwrap_or(0);
                assert!(times >= 5, "{what} was {number} only {times} times");
            }
        }
    }
}
