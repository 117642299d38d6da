//! The proved program, called through its C function. No call finds the memory that it is lent cleared.

use crate::programs::Measured;
use compare::proved::Proved;

impl Measured for Proved {
    fn name(&self) -> &'static str {
        "proved"
    }

    fn play(&mut self, run: &[u8]) -> &[u8] {
        self.print(run)
    }

    fn memory(&self) -> String {
        let (work, print) = self.lent();
        format!("work {work}, print {print}, lent")
    }
}
