//! Messages between sites as bytes: kind, round, set. Who sent one is said by whoever carries it.

use crate::refusal::{self, Refusal};
use crate::{bytes_of_set, set_of_bytes, Set};

#[derive(Clone, Copy, Debug, PartialEq, Eq)]
pub enum MessageKind {
    /// 1: the commands that its sender acknowledges.
    Acknowledgment,
    /// 2: what its sender has received and not delivered.
    Check,
}

/// A message with its numbers as they stand, in range or not.
#[derive(Clone, Debug, PartialEq, Eq)]
pub struct Message {
    pub kind: MessageKind,
    pub round: usize,
    pub set: Set,
}

/// A message is 10 bytes.
pub const MESSAGE_BYTES: usize = 10;

impl Message {
    /// The message whose bytes these are; 3 for another length and for an unknown kind.
    pub fn read(bytes: &[u8]) -> Result<Message, Refusal> {
        let whole = <[u8; MESSAGE_BYTES]>::try_from(bytes).map_err(|_| refusal::FORM)?;
        let [kind, round, set @ ..] = whole;
        let kind = match kind {
            1 => MessageKind::Acknowledgment,
            2 => MessageKind::Check,
            _ => return Err(refusal::FORM),
        };
        Ok(Message { kind, round: usize::from(round), set: set_of_bytes(set) })
    }

    /// The bytes of a message; the low byte of the round where it is wider.
    pub fn bytes(&self) -> Vec<u8> {
        let kind = match self.kind {
            MessageKind::Acknowledgment => 1,
            MessageKind::Check => 2,
        };
        let mut bytes = vec![kind, self.round as u8];
        bytes.extend(bytes_of_set(&self.set));
        bytes
    }
}
