//! Times of all programs on one workload, taken in turns so that a busy machine slows all alike.

use crate::programs::Measured;
use crate::workloads::Workload;
use std::hint::black_box;
use std::time::{Duration, Instant};

/// How long and how often each program is timed.
#[derive(Clone, Copy)]
pub struct Effort {
    /// How many times each program comes to its turn; the best counts.
    pub turns: usize,
    /// About how long one turn takes.
    pub turn: Duration,
}

/// Seconds for playing all the runs once, the mean of so many times.
fn time(program: &mut dyn Measured, runs: &[Vec<u8>], times: usize) -> f64 {
    let start = Instant::now();
    for _ in 0..times {
        for run in runs {
            black_box(program.play(black_box(run)));
        }
    }
    start.elapsed().as_secs_f64() / times as f64
}

/// How many times the runs are played to fill a turn.
fn times_in_turn(program: &mut dyn Measured, runs: &[Vec<u8>], turn: Duration) -> usize {
    let once = time(program, runs, 1).max(1e-9);
    (turn.as_secs_f64() / once).clamp(1.0, 1e6) as usize
}

/// One turn of a program: seconds for the runs, and for those that lead up to the steps.
#[derive(Clone, Copy)]
struct Turn {
    whole: f64,
    before: f64,
}

/// A turn is timed in so many parts, each with the runs that lead up to the steps, so that a machine that slows down
/// for a while slows both.
const PARTS: usize = 8;

/// The runs are played once before they are timed: what the program before has left in caches and in the processor's
/// predictions is no time of this one.
fn turn_of(program: &mut dyn Measured, workload: &Workload, times: usize) -> Turn {
    time(program, &workload.runs, 1);
    let (parts, times) = if times < PARTS { (1, times) } else { (PARTS, times / PARTS) };
    let mut turn = Turn { whole: 0.0, before: 0.0 };
    for _ in 0..parts {
        turn.whole += time(program, &workload.runs, times) / parts as f64;
        turn.before += time(program, &workload.before, times) / parts as f64;
    }
    turn
}

/// Where something is taken off, so many times more turns are timed: what is left is a small part of what is timed.
const TURNS_OF_DIFFERENCES: usize = 5;

fn turns_of(workload: &Workload, effort: Effort) -> usize {
    if workload.before.is_empty() {
        effort.turns
    } else {
        effort.turns * TURNS_OF_DIFFERENCES
    }
}

/// The best time counts. Where something is taken off, the middle one of the turns' differences counts: a difference
/// of two best times, of different turns, can come out as nearly nothing.
fn seconds(turns: &[Turn], has_before: bool) -> f64 {
    let mut differences: Vec<f64> = turns.iter().map(|turn| turn.whole - turn.before).collect();
    differences.sort_by(f64::total_cmp);
    differences[if has_before { differences.len() / 2 } else { 0 }].max(0.0)
}

/// Nanoseconds a step of each program; the time of the runs that lead up to the steps is taken off.
pub fn nanoseconds(programs: &mut [Box<dyn Measured>], workload: &Workload, effort: Effort) -> Vec<f64> {
    let mut times = Vec::new();
    for program in programs.iter_mut() {
        times.push(times_in_turn(program.as_mut(), &workload.runs, effort.turn));
    }
    let mut turns = vec![Vec::new(); programs.len()];
    for turn in 0..turns_of(workload, effort) {
        for place in 0..programs.len() {
            // Each turn starts with another program.
            let which = (place + turn) % programs.len();
            let (program, times) = (programs[which].as_mut(), times[which]);
            turns[which].push(turn_of(program, workload, times));
        }
    }
    let steps = workload.steps.max(1) as f64;
    turns.iter().map(|turns| seconds(turns, !workload.before.is_empty()) * 1e9 / steps).collect()
}

/// Panics where two programs print differently: times of different work are no comparison.
pub fn check(programs: &mut [Box<dyn Measured>], workload: &Workload) {
    for run in workload.runs.iter().chain(&workload.before) {
        let expected = reference::play(run);
        for program in programs.iter_mut() {
            let name = program.name();
            assert!(program.play(run) == expected, "{name} prints {} otherwise", workload.name);
        }
    }
}
