//! One call in an engine against what the header promises, and what the calls of a test have met.

use crate::expected::{self, expected, Outcome, ACKNOWLEDGMENTS, CHECKS};
use crate::lent_calls::{Call, Engine, Lent, DOCUMENTED};
use crate::site_bytes::{decode, encode, REASONS};
use reference::lent::rules;
use std::collections::BTreeMap;
use std::fmt;

/// Writes the later site, up to its last row, and the outputs into what is lent.
pub fn write_outcome(lent: &mut Lent, outcome: &Outcome) {
    if let Some((site, span)) = &outcome.site {
        lent.site.write(&encode(site, *span).expect("a later site fits into its bytes"));
    }
    lent.message.write(&outcome.outputs.message);
    lent.entry.write(&outcome.outputs.entry);
    lent.out.write(&outcome.outputs.out);
}

/// Makes the call; how it differs from what is expected, guards and untouched bytes included.
pub fn check(engine: &mut dyn Engine, call: &Call, lent: &Lent) -> Result<Outcome, String> {
    let outcome = expected(call, lent);
    let mut after = lent.clone();
    write_outcome(&mut after, &outcome);
    let mut found = lent.clone();
    let answer = engine.call(call, &mut found);
    let report = |what: &str| format!("{call:?} {what}; expected was {outcome:?}\nlent: {lent:?}\nthen: {found:?}");
    if !call.answers().contains(&outcome.answer) {
        return Err(report("is expected to give an answer that the header does not list"));
    }
    if answer != outcome.answer {
        return Err(report(&format!("answered {answer}")));
    }
    if found != after && answer != 0 {
        return Err(report("was refused and changed what is lent"));
    }
    if let (Some((site, _)), Ok(rules)) = (&outcome.site, rules(lent.table.lent(), lent.book.lent())) {
        if decode(found.site.lent(), &rules).as_ref() != Ok(site) {
            return Err(report("left another site"));
        }
    }
    if found != after {
        return Err(report("wrote other bytes"));
    }
    Ok(outcome)
}

/// The causes that each function has to meet.
fn causes() -> Vec<(&'static str, &'static str)> {
    let mut causes = vec![
        ("judge_table", expected::TABLE_CUT),
        ("judge_table", expected::TABLE_LIMITS),
        ("receive", expected::LENGTH),
        ("receive", expected::KIND),
        ("turn", expected::ACKNOWLEDGES),
        ("turn", expected::PROPOSES),
        ("turn", expected::SHORT_MESSAGE),
        ("turn", expected::SHORT_ENTRY),
        ("turn", expected::OPERAND),
        ("log_read", expected::OPERAND),
        ("fast_delivery", expected::FULL),
        ("round_end", expected::FULL),
    ];
    causes.extend(ACKNOWLEDGMENTS.iter().chain(&CHECKS).map(|cause| ("receive", *cause)));
    causes.extend(["status", "bike", "delivery"].map(|function| (function, expected::SHORT_OUT)));
    for function in ["turn", "log_read", "round_end"] {
        causes.extend([expected::POSITION, expected::READ].map(|cause| (function, cause)));
    }
    for (function, _) in &DOCUMENTED[3..] {
        let of_all = [expected::SHORT_SITE, expected::TABLE_CUT, expected::TABLE_LIMITS];
        causes.extend(of_all.into_iter().chain(REASONS).map(|cause| (*function, cause)));
    }
    causes
}

/// How often each function gave each answer, by cause.
#[derive(Default)]
pub struct Met {
    counts: BTreeMap<(&'static str, u32, &'static str), usize>,
}

impl Met {
    pub fn add(&mut self, call: &Call, outcome: &Outcome) {
        *self.counts.entry((call.name(), outcome.answer, outcome.cause)).or_default() += 1;
    }

    fn count(&self, is_counted: impl Fn(&str, u32, &str) -> bool) -> usize {
        let counted = self.counts.iter().filter(|((name, answer, cause), _)| is_counted(name, *answer, cause));
        counted.map(|(_, count)| count).sum()
    }

    /// The documented answers, and the causes told apart, that no call has met.
    pub fn missing(&self) -> Vec<String> {
        let mut missing = Vec::new();
        for (function, answers) in DOCUMENTED {
            let unmet =
                answers.iter().filter(|each| self.count(|name, answer, _| name == function && answer == **each) == 0);
            missing.extend(unmet.map(|answer| format!("{function} never answered {answer}")));
        }
        for (function, cause) in causes() {
            if self.count(|name, _, met| name == function && met == cause) == 0 {
                missing.push(format!("{function} never met {cause}"));
            }
        }
        missing
    }
}

impl fmt::Display for Met {
    fn fmt(&self, out: &mut fmt::Formatter) -> fmt::Result {
        for (function, answers) in DOCUMENTED {
            let count = |each: &u32| self.count(|name, answer, _| name == function && answer == *each);
            let counts: Vec<String> = answers.iter().map(|answer| format!("{answer}: {}", count(answer))).collect();
            writeln!(out, "{function:<15} {}", counts.join(", "))?;
        }
        let mut causes: BTreeMap<&str, usize> = BTreeMap::new();
        for ((_, _, cause), count) in self.counts.iter().filter(|((_, _, cause), _)| !cause.is_empty()) {
            *causes.entry(cause).or_default() += count;
        }
        let causes: Vec<String> = causes.iter().map(|(cause, count)| format!("{cause} {count}")).collect();
        write!(out, "{}", causes.join(", "))
    }
}
