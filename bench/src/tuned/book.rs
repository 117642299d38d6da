//! The book as rows of conflicts and commands ready to execute (document 01, "Sheet lines as bytes").

use super::{Refusal, BOOK, COMMANDS};

/// The highest reading.
const MOST_READING: i32 = 999_999;
pub const BIKES: usize = 32;

/// A command in a form that executes without a branch on its kind.
///
/// The new reading is the old one within `keep`, plus `change`, held within 0 to 999,999. The answer is the
/// difference of both within `changed`, plus the old reading within `before`.
#[derive(Clone, Copy)]
pub struct Command {
    pub bike: u8,
    /// Which of the bike's commands this one does not conflict with: 0 other ADDs, 1 other READs, 2 none.
    group: u8,
    keep: i32,
    change: i32,
    changed: i32,
    before: i32,
    dash: u32,
}

/// Reading and dash of a bike.
#[derive(Clone, Copy)]
pub struct Bike {
    pub reading: i32,
    pub dash: u32,
}

impl Command {
    const READ: Command = Command { bike: 0, group: 1, keep: -1, change: 0, changed: 0, before: -1, dash: 0 };

    /// The bike after the command, and the answer.
    #[inline(always)]
    pub fn execute(&self, bike: Bike) -> (Bike, i32) {
        let before = bike.reading;
        let reading = ((before & self.keep) + self.change).clamp(0, MOST_READING);
        let dash = bike.dash & self.keep as u32 | self.dash;
        let answer = ((reading - before) & self.changed) + (before & self.before);
        (Bike { reading, dash }, answer)
    }
}

pub struct Book {
    pub count: u8,
    /// The set of all commands.
    pub all: u64,
    /// The commands that conflict with any.
    conflicting: u64,
    pub commands: [Command; COMMANDS],
    /// For each command those that conflict with it.
    rows: [u64; COMMANDS],
}

/// A command from the front of the bytes, and what follows it.
#[inline(always)]
fn read_command(bytes: &[u8]) -> Option<(Command, &[u8])> {
    let (&[kind, bike], rest) = bytes.split_first_chunk::<2>()?;
    if usize::from(bike) >= BIKES {
        return None;
    }
    let read = Command { bike, ..Command::READ };
    match kind {
        0x01 => {
            let (km, rest) = rest.split_first_chunk::<2>()?;
            let change = i32::from(u16::from_le_bytes(*km));
            Some((Command { group: 0, change, before: 0, ..read }, rest))
        }
        0x02 => {
            let (dash, rest) = rest.split_first_chunk::<4>()?;
            let (start, rest) = rest.split_first_chunk::<4>()?;
            let start = u32::from_le_bytes(*start);
            let fit = Command { group: 2, keep: 0, change: start as i32, dash: u32::from_le_bytes(*dash), ..read };
            (start <= MOST_READING as u32).then_some((fit, rest))
        }
        0x03 => Some((read, rest)),
        0x04 => {
            let (km, rest) = rest.split_first_chunk::<2>()?;
            let change = i32::from(i16::from_le_bytes(*km));
            Some((Command { group: 2, change, changed: -1, before: 0, ..read }, rest))
        }
        _ => None,
    }
}

impl Book {
    pub fn new() -> Book {
        Book { count: 0, all: 0, conflicting: 0, commands: [Command::READ; COMMANDS], rows: [0; COMMANDS] }
    }

    /// Reads a whole book in place of the one before.
    pub fn read(&mut self, bytes: &[u8]) -> Result<(), Refusal> {
        let mut rest = bytes;
        let mut count = 0;
        while !rest.is_empty() {
            let (command, after) = read_command(rest).ok_or(BOOK)?;
            *self.commands.get_mut(count).ok_or(BOOK)? = command;
            count += 1;
            rest = after;
        }
        self.count = count as u8;
        self.all = u64::MAX.checked_shr(64 - count as u32).unwrap_or(0);
        self.fill_rows(count);
        Ok(())
    }

    /// Commands on one bike conflict, unless both are ADD or both are READ.
    fn fill_rows(&mut self, count: usize) {
        // For each bike its ADDs, its READs, none, and all its commands.
        let mut on_bike = [[0u64; 4]; BIKES];
        let commands = &self.commands[..count];
        for (number, command) in commands.iter().enumerate() {
            let sets = &mut on_bike[usize::from(command.bike) % BIKES];
            sets[usize::from(command.group) % 4] |= 1 << number;
            sets[2] = 0;
            sets[3] |= 1 << number;
        }
        self.conflicting = 0;
        for (number, (command, row)) in commands.iter().zip(&mut self.rows).enumerate() {
            let sets = on_bike[usize::from(command.bike) % BIKES];
            *row = sets[3] & !sets[usize::from(command.group) % 4] & !(1 << number);
            self.conflicting |= u64::from(*row != 0) << number;
        }
    }

    /// Whether a command of the first set conflicts with one of the second.
    #[inline(always)]
    pub fn conflict(&self, some: u64, set: u64) -> bool {
        let mut left = some & self.conflicting;
        while left != 0 {
            if self.rows[left.trailing_zeros() as usize % COMMANDS] & set != 0 {
                return true;
            }
            left &= left - 1;
        }
        false
    }
}
