//! Arbitrary and damaged bytes: the reference never panics, and demand 3 holds of every play.

use compare::damage::damage;
use compare::draw::Draw;
use compare::generator;
#[cfg(feature = "archive")]
use compare::program::{compare, Reference};
use compare::settings::{hexadecimal, number, say};
use reference::{common_sequence, play, play_run};
use std::panic::catch_unwind;
use std::time::{Duration, Instant};

/// A run to damage further: one of the generator's kinds, but none of the slow ones.
fn base(draw: &mut Draw) -> Vec<u8> {
    match draw.below(8) {
        0 | 1 => generator::noisy(draw),
        2..=4 => generator::short(draw),
        5 => generator::garbage(draw),
        6 => (0..draw.below(3000)).map(|_| draw.byte()).collect(),
        _ => (0..draw.below(3000)).map(|_| draw.byte() % 12).collect(),
    }
}

/// Plays one run; a panic or a violation of demand 3 fails with the run as hexadecimal text.
fn check(run: &[u8]) {
    let outcome = catch_unwind(|| {
        let print = play(run);
        assert!(print.is_ascii() && print.ends_with(b"\n"));
        match play_run(run) {
            Ok(played) => common_sequence(&played.steps, &played.verdicts, &played.world).map(|_| ()),
            Err(_) => Ok(()),
        }
    });
    match outcome {
        Ok(Ok(())) => {}
        Ok(Err(violation)) => panic!("{violation}\n{}", hexadecimal(run)),
        Err(_) => panic!("the reference panicked on\n{}", hexadecimal(run)),
    }
}

#[test]
fn damaged_bytes() {
    let (seconds, seed) = (number("BEURILMA_FUZZ_SECONDS", 5), number("BEURILMA_SEED", 1));
    say(&format!("{seconds} seconds of damaged runs from BEURILMA_SEED={seed}"));
    let (start, limit) = (Instant::now(), Duration::from_secs(seconds));
    #[cfg(feature = "archive")]
    let mut proved = compare::proved::Proved::new();
    let mut place = 0;
    while start.elapsed() < limit {
        let mut draw = Draw::new(seed ^ 0x5EED, place);
        let mut run = base(&mut draw);
        for _ in 0..draw.below(9) {
            damage(&mut draw, &mut run);
        }
        check(&run);
        #[cfg(feature = "archive")]
        if let Some(difference) = compare(&run, &mut Reference, &mut proved) {
            panic!("damaged run {place} of seed {seed}: {difference}");
        }
        place += 1;
    }
    say(&format!("{place} damaged runs"));
}
