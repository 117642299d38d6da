//! The tuned program prints what the reference prints, on random runs and on damaged bytes.

use bench::tuned::{self, Work, OUT_BYTES};
use compare::damage::damage;
use compare::draw::Draw;
use compare::generator;
use compare::program::{compare, Program, Reference};
use compare::settings::{number, say};
use std::time::{Duration, Instant};

/// The tuned program with buffers that are used again and again.
struct Tuned {
    work: Box<Work>,
    out: Vec<u8>,
}

impl Tuned {
    fn new() -> Tuned {
        Tuned { work: Work::new(), out: vec![0xFF; OUT_BYTES] }
    }
}

impl Program for Tuned {
    fn play(&mut self, run: &[u8]) -> Vec<u8> {
        let length = tuned::play(run, &mut self.work, &mut self.out);
        self.out[..length].to_vec()
    }
}

fn check(tuned: &mut Tuned, run: &[u8], name: &str) {
    if let Some(difference) = compare(run, &mut Reference, tuned) {
        panic!("{name}: {difference}");
    }
}

/// Document 01's whole case.
#[test]
fn whole_case() {
    let run = [
        0x01, 0x00, 0x00, 0x00, 0x0C, 0x00, 0x02, 0x05, 0x07, 0x00, 0x00, 0x00, 0xB0, 0x36, 0x00, 0x00, 0x03, 0x05,
        0x01, 0x00, 0x00, 0x01, 0x00, 0x01, 0x07, 0x00, 0x09, 0x00, 0x0A, 0x00,
    ];
    let print = "run 1 sites 0 liars 2 commands\nsite 00 round 02 delivered 00=0 01=14000\n";
    assert_eq!(Tuned::new().play(&run), print.as_bytes());
}

#[test]
fn random_runs() {
    let (runs, seed) = (number("BEURILMA_RUNS", 20_000), number("BEURILMA_SEED", 1));
    say(&format!("{runs} random runs from BEURILMA_SEED={seed}"));
    let mut tuned = Tuned::new();
    for place in 0..runs {
        check(&mut tuned, &generator::run(seed, place), &format!("run {place} of seed {seed}"));
    }
}

/// A run to damage: one of the generator's kinds, or bytes without any plan.
fn base(draw: &mut Draw) -> Vec<u8> {
    match draw.below(8) {
        0 | 1 => generator::noisy(draw),
        2 | 3 => generator::short(draw),
        4 => generator::lagging(draw),
        5 => generator::garbage(draw),
        6 => (0..draw.below(3000)).map(|_| draw.byte()).collect(),
        _ => (0..draw.below(3000)).map(|_| draw.byte() % 12).collect(),
    }
}

#[test]
fn damaged_bytes() {
    let (seconds, seed) = (number("BEURILMA_FUZZ_SECONDS", 5), number("BEURILMA_SEED", 1));
    say(&format!("{seconds} seconds of damaged runs from BEURILMA_SEED={seed}"));
    let (start, limit) = (Instant::now(), Duration::from_secs(seconds));
    let mut tuned = Tuned::new();
    let mut place = 0;
    while start.elapsed() < limit {
        let mut draw = Draw::new(seed ^ 0x5EED, place);
        let mut run = base(&mut draw);
        for _ in 0..draw.below(9) {
            damage(&mut draw, &mut run);
        }
        check(&mut tuned, &run, &format!("damaged run {place} of seed {seed}"));
        place += 1;
    }
    say(&format!("{place} damaged runs"));
}

/// Runs at the limits of the size, and a run of nothing but refused steps, whose print is the longest.
#[test]
fn longest_runs() {
    let mut tuned = Tuned::new();
    for length in [59_999, 60_000, 60_001] {
        let mut run = vec![11, 2, 0, 0, 0, 0];
        run.resize(length, 0x07);
        check(&mut tuned, &run, &format!("{length} bytes"));
    }
}
