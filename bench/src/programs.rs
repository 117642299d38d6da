//! The programs that are measured, each with buffers that it uses again for every run.

use crate::tuned::{self, Work, OUT_BYTES};

/// A program that plays a run into a buffer of its own.
pub trait Measured {
    fn name(&self) -> &'static str;

    /// The print of the run. Buffers are not cleared between calls.
    fn play(&mut self, run: &[u8]) -> &[u8];

    /// What memory it holds, in bytes.
    fn memory(&self) -> String;
}

/// The reference; it allocates as it goes, and its print is a new buffer each time.
#[derive(Default)]
pub struct Reference {
    print: Vec<u8>,
}

impl Measured for Reference {
    fn name(&self) -> &'static str {
        "reference"
    }

    fn play(&mut self, run: &[u8]) -> &[u8] {
        self.print = reference::play(run);
        &self.print
    }

    fn memory(&self) -> String {
        String::from("on the heap as it goes")
    }
}

/// The tuned program.
pub struct Tuned {
    work: Box<Work>,
    out: Vec<u8>,
}

impl Tuned {
    pub fn new() -> Tuned {
        Tuned { work: Work::new(), out: vec![0; OUT_BYTES] }
    }
}

impl Default for Tuned {
    fn default() -> Tuned {
        Tuned::new()
    }
}

impl Measured for Tuned {
    fn name(&self) -> &'static str {
        "tuned"
    }

    fn play(&mut self, run: &[u8]) -> &[u8] {
        let length = tuned::play(run, &mut self.work, &mut self.out);
        &self.out[..length]
    }

    fn memory(&self) -> String {
        format!("work {}, print {}", size_of::<Work>(), self.out.len())
    }
}

/// All programs of this build, the reference first.
pub fn all() -> Vec<Box<dyn Measured>> {
    let programs: Vec<Box<dyn Measured>> = vec![
        Box::new(Reference::default()),
        Box::new(Tuned::new()),
        #[cfg(feature = "archive")]
        Box::new(compare::proved::Proved::new()),
    ];
    programs
}
