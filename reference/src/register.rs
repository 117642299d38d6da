//! The register and what each kind of command does to it (document 01, the table of kinds).

use crate::book::{Command, Kind, BIKES, MOST_READING};

/// Reading and dash of each bike; the opening register has 0 and 0 for all.
#[derive(Clone, Debug, Default, PartialEq, Eq)]
pub struct Register {
    pub readings: [u32; BIKES],
    pub dashes: [u32; BIKES],
}

/// A number held within 0 to 999,999.
fn held(number: i64) -> u32 {
    // The bounds make the conversion lossless.
    number.clamp(0, i64::from(MOST_READING)) as u32
}

/// The new reading minus the old; both are 32-bit readings, and any difference is held within 32 signed bits.
fn difference(new: u32, old: u32) -> i32 {
    let exact = i64::from(new) - i64::from(old);
    exact.clamp(i64::from(i32::MIN), i64::from(i32::MAX)) as i32
}

impl Register {
    /// Executes the command and gives its answer.
    pub fn execute(&mut self, command: Command) -> i32 {
        let (Some(reading), Some(dash)) = (self.readings.get_mut(command.bike), self.dashes.get_mut(command.bike))
        else {
            return 0;
        };
        let before = *reading;
        match command.kind {
            Kind::Add { km } => {
                *reading = held(i64::from(before) + i64::from(km));
                0
            }
            Kind::Fit { dash: fitted, start } => {
                *dash = fitted;
                *reading = start;
                difference(before, 0)
            }
            Kind::Read => difference(before, 0),
            Kind::Trim { km } => {
                *reading = held(i64::from(before) + i64::from(km));
                difference(*reading, before)
            }
        }
    }
}
