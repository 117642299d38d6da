//! Books of commands and which of them conflict (document 01, "Sheet lines as bytes").

use crate::refusal::{self, Refusal};
use crate::Set;

/// The highest reading a dash shows.
pub const MOST_READING: u32 = 999_999;
/// Bikes are numbered 0 to 31.
pub const BIKES: usize = 32;
/// A book has at most this many commands.
pub const MOST_COMMANDS: usize = 64;

#[derive(Clone, Copy, Debug, PartialEq, Eq)]
pub enum Kind {
    Add { km: u16 },
    Fit { dash: u32, start: u32 },
    Read,
    Trim { km: i16 },
}

#[derive(Clone, Copy, Debug, PartialEq, Eq)]
pub struct Command {
    pub bike: usize,
    pub kind: Kind,
}

/// Commands by number; the same book at all sites.
#[derive(Clone, Debug, Default, PartialEq, Eq)]
pub struct Book {
    commands: Vec<Command>,
}

/// The first N bytes and what follows them; a cut operand where there are fewer.
fn take<const N: usize>(bytes: &[u8]) -> Result<([u8; N], &[u8]), Refusal> {
    match bytes.split_first_chunk::<N>() {
        Some((first, rest)) => Ok((*first, rest)),
        None => Err(refusal::BOOK),
    }
}

/// A FIT's operands: the dash may be any number, the start is a reading.
fn read_fit(bytes: &[u8]) -> Result<(Kind, &[u8]), Refusal> {
    let (dash, rest) = take::<4>(bytes)?;
    let (start, rest) = take::<4>(rest)?;
    let (dash, start) = (u32::from_le_bytes(dash), u32::from_le_bytes(start));
    if start > MOST_READING {
        return Err(refusal::BOOK);
    }
    Ok((Kind::Fit { dash, start }, rest))
}

/// One command from the front of the bytes, and what follows it.
fn read_command(bytes: &[u8]) -> Result<(Command, &[u8]), Refusal> {
    let ([kind, bike], rest) = take::<2>(bytes)?;
    let bike = usize::from(bike);
    if bike >= BIKES {
        return Err(refusal::BOOK);
    }
    let (kind, rest) = match kind {
        0x01 => take::<2>(rest).map(|(km, rest)| (Kind::Add { km: u16::from_le_bytes(km) }, rest))?,
        0x02 => read_fit(rest)?,
        0x03 => (Kind::Read, rest),
        0x04 => take::<2>(rest).map(|(km, rest)| (Kind::Trim { km: i16::from_le_bytes(km) }, rest))?,
        _ => return Err(refusal::BOOK),
    };
    Ok((Command { bike, kind }, rest))
}

impl Book {
    /// The book whose bytes these are, all of them.
    pub fn read(bytes: &[u8]) -> Result<Book, Refusal> {
        let mut commands = Vec::new();
        let mut rest = bytes;
        while !rest.is_empty() {
            if commands.len() == MOST_COMMANDS {
                return Err(refusal::BOOK);
            }
            let (command, after) = read_command(rest)?;
            commands.push(command);
            rest = after;
        }
        Ok(Book { commands })
    }

    /// How many commands the book has.
    pub fn count(&self) -> usize {
        self.commands.len()
    }

    pub fn command(&self, number: usize) -> Option<Command> {
        self.commands.get(number).copied()
    }

    /// Two commands at different places conflict when they name the same bike,
    /// unless both are ADD or both are READ.
    pub fn conflict(&self, left: usize, right: usize) -> bool {
        let (Some(a), Some(b)) = (self.command(left), self.command(right)) else {
            return false;
        };
        let both_add = matches!((a.kind, b.kind), (Kind::Add { .. }, Kind::Add { .. }));
        let both_read = matches!((a.kind, b.kind), (Kind::Read, Kind::Read));
        left != right && a.bike == b.bike && !both_add && !both_read
    }

    /// No two commands of the set conflict.
    pub fn is_free_of_conflict(&self, set: &Set) -> bool {
        set.iter().all(|a| set.iter().all(|b| !self.conflict(*a, *b)))
    }

    /// Every command of the set is in the book.
    pub fn holds(&self, set: &Set) -> bool {
        set.iter().all(|m| *m < self.count())
    }
}
