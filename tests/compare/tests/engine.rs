//! The calls of a one-site engine against the reference: every answer, every later byte, every output.
//!
//! One engine is the stand-in; with the feature `archive` the other is that of the archive.

use compare::draw::Draw;
#[cfg(feature = "archive")]
use compare::engine::Archive;
use compare::lent_calls::{Call, Engine};
use compare::lent_check::{check, Met};
use compare::lent_draw;
use compare::lent_scenes::play;
use compare::settings::{number, say};
use compare::stand_in::StandIn;
use reference::Site;
use std::time::Instant;

/// Below so many calls an answer may be missing by chance.
const ENOUGH_CALLS: u64 = 50_000;

fn make_calls(name: &str, engine: &mut dyn Engine) {
    let (calls, seed) = (number("BEURILMA_CALLS", 100_000), number("BEURILMA_SEED", 1));
    say(&format!("{calls} calls in {name} from BEURILMA_SEED={seed}"));
    let (start, mut met) = (Instant::now(), Met::default());
    play(engine, calls, seed, &mut met).unwrap_or_else(|difference| panic!("{difference}"));
    say(&format!("{met}\n{:.1} seconds", start.elapsed().as_secs_f64()));
    let missing = met.missing();
    assert!(calls < ENOUGH_CALLS || missing.is_empty(), "{}", missing.join("; "));
}

/// A log with more entries than a log position can count: its length is no cause, and entries far behind do not matter.
fn lend_many_entries(engine: &mut dyn Engine) {
    let mut draw = Draw::new(1, 0);
    let mut scene = lent_draw::scene(&mut draw);
    for (position, count) in [(0, 65_536), (0, 65_537), (1, 70_000), (2, 65_538), (3, 65_540), (65_535, 65_540)] {
        let third = [&[0, 1][..], &[0; 16]].concat();
        scene.log = third.repeat(count);
        let received = (0..scene.rules.book.count()).collect();
        scene.site = Site { received, log_position: position, ..Site::start() };
        for call in [Call::LogRead, Call::RoundEnd, Call::Turn { own: 0 }, Call::Status] {
            check(engine, &call, &scene.lent(&mut draw, &call)).unwrap_or_else(|difference| {
                let short: String = difference.chars().take(1_000).collect();
                panic!("{count} entries: {short}")
            });
        }
    }
}

#[test]
fn calls_of_the_stand_in() {
    make_calls("the stand-in", &mut StandIn);
}

#[test]
fn many_entries_in_the_stand_in() {
    lend_many_entries(&mut StandIn);
}

#[cfg(feature = "archive")]
#[test]
fn calls_of_the_archive() {
    make_calls("the archive", &mut Archive);
}

#[cfg(feature = "archive")]
#[test]
fn many_entries_in_the_archive() {
    lend_many_entries(&mut Archive);
}
