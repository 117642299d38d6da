//! Times are taken in several processes, one after another: where the memory of a process stands changes its times by
//! several hundredths, for as long as it lives, and not those of all programs alike.

use std::env;
use std::process::{Command, Stdio};

/// Set for a process that only takes times.
const TIMES_ONLY: &str = "BENCH_TIMES_ONLY";

/// Nanoseconds of each program, row by row.
pub type Times = Vec<Vec<f64>>;

/// Whether this process only takes times, for another one.
pub fn takes_times() -> bool {
    env::var_os(TIMES_ONLY).is_some()
}

/// Times as text, a line a row.
pub fn to_text(times: &Times) -> String {
    let line = |row: &Vec<f64>| row.iter().map(f64::to_string).collect::<Vec<String>>().join(" ") + "\n";
    times.iter().map(line).collect()
}

/// The times that a text tells.
pub fn from_text(text: &str) -> Times {
    let time = |word: &str| word.parse().expect("a time is a number");
    text.lines().map(|line| line.split(' ').map(time).collect()).collect()
}

/// The times that so many processes of this program take, one after another.
pub fn take_times(processes: usize) -> Vec<Times> {
    (0..processes).map(|_| take_times_once()).collect()
}

fn take_times_once() -> Times {
    let program = env::current_exe().expect("this program has a path");
    let process = Command::new(program).env(TIMES_ONLY, "1").stderr(Stdio::inherit()).output();
    let output = process.expect("this program can be started again");
    assert!(output.status.success(), "a process that takes times failed");
    from_text(&String::from_utf8(output.stdout).expect("times are text"))
}

/// Which of several processes' times counts.
#[derive(Clone, Copy)]
pub enum Choice {
    Best,
    /// For differences of times: the smallest of them can be one that took too much off.
    Middle,
}

impl Choice {
    fn of(self, mut times: Vec<f64>) -> f64 {
        times.sort_by(f64::total_cmp);
        match self {
            Choice::Best => times[0],
            Choice::Middle => times[times.len() / 2],
        }
    }
}

/// The times of all processes as one: for each row a choice, and by it a time for each program.
pub fn combined(all: &[Times], choices: &[Choice]) -> Times {
    let row = |(place, choice): (usize, &Choice)| -> Vec<f64> {
        let programs = 0..all[0][place].len();
        programs.map(|program| choice.of(all.iter().map(|times| times[place][program]).collect())).collect()
    };
    choices.iter().enumerate().map(row).collect()
}
