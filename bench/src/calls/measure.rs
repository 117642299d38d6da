//! Times of all engines on one call, taken in turns.

use super::cases::Case;
use super::engines::{Named, Nothing, Reference};
use crate::measure::Effort;
use compare::lent_calls::{Engine, Lent};
use std::hint::black_box;
use std::ops::Range;
use std::time::Instant;

/// From the first to the last 8 bytes of a lent site that a call changes.
fn changed(before: &[u8], after: &[u8]) -> Range<usize> {
    let words = || before.chunks(8).zip(after.chunks(8));
    let Some(first) = words().position(|(old, new)| old != new) else {
        return 0..0;
    };
    let same_after = words().rev().take_while(|(old, new)| old == new).count();
    8 * first..8 * (words().len() - same_after)
}

/// A case with what is lent again and again, and what is written back between calls.
struct Prepared<'a> {
    case: &'a Case,
    lent: Lent,
    changed: Range<usize>,
}

impl Prepared<'_> {
    fn new(case: &Case) -> Prepared<'_> {
        let mut after = case.lent.clone();
        Reference.call(&case.call, &mut after);
        let changed = changed(case.lent.site.lent(), after.site.lent());
        Prepared { case, lent: case.lent.clone(), changed }
    }

    /// The site is again as the case lends it.
    fn write_back(&mut self) {
        let range = self.changed.clone();
        self.lent.site.lent_mut()[range.clone()].copy_from_slice(&self.case.lent.site.lent()[range]);
    }

    /// Seconds for a call and the loop around it, the mean of so many.
    fn time(&mut self, engine: &mut dyn Engine, times: usize) -> f64 {
        let start = Instant::now();
        for _ in 0..times {
            self.write_back();
            black_box(engine.call(black_box(&self.case.call), &mut self.lent));
        }
        start.elapsed().as_secs_f64() / times as f64
    }

    fn times_in_turn(&mut self, engine: &mut dyn Engine, effort: Effort) -> usize {
        let once = self.time(engine, 1).max(1e-9);
        (effort.turn.as_secs_f64() / once).clamp(1.0, 1e6) as usize
    }
}

/// Nanoseconds a call in each engine; the loop around it is taken off.
pub fn nanoseconds(engines: &mut [Named], case: &Case, effort: Effort) -> Vec<f64> {
    let mut prepared = Prepared::new(case);
    let mut all: Vec<&mut dyn Engine> = engines.iter_mut().map(|named| named.engine.as_mut()).collect();
    let mut nothing = Nothing;
    all.push(&mut nothing);
    let times: Vec<usize> = all.iter_mut().map(|engine| prepared.times_in_turn(*engine, effort)).collect();
    let mut best = vec![f64::INFINITY; all.len()];
    for turn in 0..effort.turns {
        for place in 0..all.len() {
            // Each turn starts with another engine.
            let which = (place + turn) % all.len();
            best[which] = best[which].min(prepared.time(all[which], times[which]));
        }
    }
    let around = best.pop().unwrap_or(0.0);
    best.iter().map(|time| (time - around).max(0.0) * 1e9).collect()
}

/// Panics where an engine answers otherwise or leaves other bytes than the reference, or where a restored site is not
/// the one that was lent: times of different work are no comparison.
pub fn check(engines: &mut [Named], case: &Case) {
    let mut expected = case.lent.clone();
    let answer = Reference.call(&case.call, &mut expected);
    assert_eq!(answer, case.answer, "{} is answered otherwise than meant", case.name);
    let mut prepared = Prepared::new(case);
    for Named { name, engine } in engines {
        let found = engine.call(&case.call, &mut prepared.lent);
        assert!(found == answer && prepared.lent == expected, "{name} does {} otherwise", case.name);
        prepared.write_back();
        assert!(prepared.lent.site == case.lent.site, "{} is not restored", case.name);
    }
}
