//! The engines that are measured.

use compare::expected::expected;
use compare::lent_calls::{Call, Engine, Lent};
use compare::lent_check::write_outcome;
use std::hint::black_box;

/// The reference: the bytes are read into its site, the site takes the step, and its bytes are written back.
pub struct Reference;

impl Engine for Reference {
    fn call(&mut self, call: &Call, lent: &mut Lent) -> u32 {
        let outcome = expected(call, lent);
        write_outcome(lent, &outcome);
        outcome.answer
    }
}

/// Does nothing: what is left of the times is that of the loop around a call.
pub struct Nothing;

impl Engine for Nothing {
    fn call(&mut self, _call: &Call, lent: &mut Lent) -> u32 {
        black_box(lent);
        0
    }
}

/// An engine with its name in the table.
pub struct Named {
    pub name: &'static str,
    pub engine: Box<dyn Engine>,
}

/// All engines of this build, the reference first.
pub fn all() -> Vec<Named> {
    vec![
        Named { name: "reference", engine: Box::new(Reference) },
        #[cfg(feature = "archive")]
        Named { name: "proved", engine: Box::new(compare::engine::Archive) },
    ]
}
