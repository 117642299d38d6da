//! The steps of a run as bytes (document 01, "A run and its print").

use crate::refusal::{self, Refusal};
use crate::{bytes_of_set, set_of_bytes, Set};

/// A step with its operands as they stand, in range or not.
#[derive(Clone, Debug, PartialEq, Eq)]
pub enum Step {
    /// 01: a command reaches a site.
    Command { to: usize, command: usize },
    /// 02: the a-th acknowledgment that correct `from` sent in the round.
    Acknowledgment { to: usize, from: usize, round: usize, a: usize },
    /// 03: the check message of correct `from`.
    Check { to: usize, from: usize, round: usize },
    /// 04: an acknowledgment of faulty `from`.
    FaultyAcknowledgment { to: usize, from: usize, round: usize, set: Set },
    /// 05: a check message of faulty `from`.
    FaultyCheck { to: usize, from: usize, round: usize, set: Set },
    /// 06: a log entry of faulty `from`.
    FaultyEntry { from: usize, round: usize, nc: Set, c: Set },
    /// 07: a turn.
    Turn { site: usize },
    /// 08: a fast delivery.
    FastDelivery { site: usize, command: usize },
    /// 09: a log read.
    LogRead { site: usize },
    /// 0A: a round end.
    RoundEnd { site: usize },
}

/// How many bytes of operands follow a step code; none for an unknown code.
pub fn operand_bytes(code: u8) -> Option<usize> {
    match code {
        0x01 | 0x08 => Some(2),
        0x02 => Some(4),
        0x03 => Some(3),
        0x04 | 0x05 => Some(11),
        0x06 => Some(18),
        0x07 | 0x09 | 0x0A => Some(1),
        _ => None,
    }
}

/// The first step of the bytes and what follows it; 3 for an unknown code or cut operands.
pub fn read_step(bytes: &[u8]) -> Result<(Step, &[u8]), Refusal> {
    let (code, rest) = bytes.split_first().ok_or(refusal::FORM)?;
    let count = operand_bytes(*code).ok_or(refusal::FORM)?;
    if rest.len() < count {
        return Err(refusal::FORM);
    }
    let (operands, rest) = rest.split_at(count);
    let number = |place: usize| usize::from(operands.get(place).copied().unwrap_or(0));
    let set = |place: usize| match operands.get(place..).and_then(|part| part.first_chunk::<8>()) {
        Some(bytes) => set_of_bytes(*bytes),
        None => Set::new(),
    };
    let (to, from, round) = (number(0), number(1), number(2));
    let step = match code {
        0x01 => Step::Command { to, command: number(1) },
        0x02 => Step::Acknowledgment { to, from, round, a: number(3) },
        0x03 => Step::Check { to, from, round },
        0x04 => Step::FaultyAcknowledgment { to, from, round, set: set(3) },
        0x05 => Step::FaultyCheck { to, from, round, set: set(3) },
        0x06 => Step::FaultyEntry { from: number(0), round: number(1), nc: set(2), c: set(10) },
        0x07 => Step::Turn { site: to },
        0x08 => Step::FastDelivery { site: to, command: number(1) },
        0x09 => Step::LogRead { site: to },
        _ => Step::RoundEnd { site: to },
    };
    Ok((step, rest))
}

/// Bytes of a code and one-byte numbers; the low byte where a number is wider.
fn numbers(code: u8, operands: &[usize]) -> Vec<u8> {
    let mut bytes = vec![code];
    bytes.extend(operands.iter().map(|operand| *operand as u8));
    bytes
}

/// The same, followed by sets.
fn with_sets(code: u8, operands: &[usize], sets: &[&Set]) -> Vec<u8> {
    let mut bytes = numbers(code, operands);
    bytes.extend(sets.iter().flat_map(|set| bytes_of_set(set)));
    bytes
}

impl Step {
    /// The step as a run's bytes.
    pub fn bytes(&self) -> Vec<u8> {
        match self {
            Step::Command { to, command } => numbers(0x01, &[*to, *command]),
            Step::Acknowledgment { to, from, round, a } => numbers(0x02, &[*to, *from, *round, *a]),
            Step::Check { to, from, round } => numbers(0x03, &[*to, *from, *round]),
            Step::FaultyAcknowledgment { to, from, round, set } => with_sets(0x04, &[*to, *from, *round], &[set]),
            Step::FaultyCheck { to, from, round, set } => with_sets(0x05, &[*to, *from, *round], &[set]),
            Step::FaultyEntry { from, round, nc, c } => with_sets(0x06, &[*from, *round], &[nc, c]),
            Step::Turn { site } => numbers(0x07, &[*site]),
            Step::FastDelivery { site, command } => numbers(0x08, &[*site, *command]),
            Step::LogRead { site } => numbers(0x09, &[*site]),
            Step::RoundEnd { site } => numbers(0x0A, &[*site]),
        }
    }
}
