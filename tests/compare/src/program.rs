//! Programs that play a run, and the comparison of two of them.

use crate::settings::hexadecimal;
use crate::shrink::shrink;
use std::fmt;

/// A program that plays a run's bytes to the printed bytes.
pub trait Program {
    fn play(&mut self, run: &[u8]) -> Vec<u8>;
}

/// The reference as a program.
pub struct Reference;

impl Program for Reference {
    fn play(&mut self, run: &[u8]) -> Vec<u8> {
        reference::play(run)
    }
}

/// A run that two programs print differently, made small.
pub struct Difference {
    pub run: Vec<u8>,
    pub left: Vec<u8>,
    pub right: Vec<u8>,
}

impl fmt::Display for Difference {
    fn fmt(&self, out: &mut fmt::Formatter) -> fmt::Result {
        let (left, right) = (String::from_utf8_lossy(&self.left), String::from_utf8_lossy(&self.right));
        write!(out, "the run\n{}\nprints\n{left}and\n{right}", hexadecimal(&self.run))
    }
}

/// Plays the run in both programs; a difference is shrunk to a small run.
pub fn compare(run: &[u8], left: &mut dyn Program, right: &mut dyn Program) -> Option<Difference> {
    if left.play(run) == right.play(run) {
        return None;
    }
    let run = shrink(run, &mut |smaller| left.play(smaller) != right.play(smaller));
    let (left, right) = (left.play(&run), right.play(&run));
    Some(Difference { run, left, right })
}
