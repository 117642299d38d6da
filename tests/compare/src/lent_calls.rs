//! The calls of include/dash_register.h, what is lent to them, and the engines that answer them.

use crate::settings::hexadecimal;
use std::fmt;

/// Bytes before and after each lent buffer, in which a call must not write.
const GUARD: usize = 32;

/// A lent buffer within its guard bytes. It may be lent shorter than what it holds, and as a null pointer
/// where it is lent with length 0.
#[derive(Clone, PartialEq, Eq)]
pub struct Buffer {
    bytes: Vec<u8>,
    length: usize,
    is_null: bool,
}

impl Buffer {
    /// A buffer with this content, lent whole, among guard bytes of this value.
    pub fn new(content: &[u8], guard: u8) -> Buffer {
        let bytes = [&[guard; GUARD][..], content, &[guard; GUARD]].concat();
        Buffer { bytes, length: content.len(), is_null: guard & 1 == 1 }
    }

    /// Lends fewer bytes; what is cut off guards the rest.
    pub fn cut(&mut self, length: usize) {
        self.length = self.length.min(length);
    }

    #[inline]
    pub fn lent(&self) -> &[u8] {
        &self.bytes[GUARD..GUARD + self.length]
    }

    #[inline]
    pub fn lent_mut(&mut self) -> &mut [u8] {
        &mut self.bytes[GUARD..GUARD + self.length]
    }

    /// Writes at the front of what is lent.
    pub fn write(&mut self, front: &[u8]) {
        self.lent_mut()[..front.len()].copy_from_slice(front);
    }

    pub fn length(&self) -> usize {
        self.length
    }

    /// The bytes and their guards.
    pub fn all_mut(&mut self) -> &mut [u8] {
        &mut self.bytes
    }

    /// The pointer that goes with the length.
    pub fn pointer(&mut self) -> *mut u8 {
        if self.length == 0 && self.is_null {
            std::ptr::null_mut()
        } else {
            self.lent_mut().as_mut_ptr()
        }
    }
}

impl fmt::Debug for Buffer {
    fn fmt(&self, out: &mut fmt::Formatter) -> fmt::Result {
        write!(out, "{} bytes [{}]", self.length, hexadecimal(self.lent()))
    }
}

/// All that a host lends; a call uses what its declaration names.
#[derive(Clone, PartialEq, Eq, Debug)]
pub struct Lent {
    pub table: Buffer,
    pub book: Buffer,
    pub site: Buffer,
    pub log: Buffer,
    /// The message that is received, or the one that a turn writes.
    pub message: Buffer,
    /// The log entry that a turn writes.
    pub entry: Buffer,
    /// The status, bike or delivery to be written.
    pub out: Buffer,
}

/// A call with its numbers; all else is lent.
#[derive(Clone, Copy, Debug, PartialEq, Eq)]
pub enum Call {
    JudgeTable,
    JudgeBook,
    Fresh,
    ReceiveCommand { command: usize },
    Receive { sender: usize },
    Turn { own: usize },
    FastDelivery { command: usize },
    LogRead,
    RoundEnd,
    Status,
    Bike { bike: usize },
    Delivery { place: usize },
}

/// Each function with the answers that its comment in the header lists.
pub const DOCUMENTED: [(&str, &[u32]); 12] = [
    ("judge_table", &[0, 2]),
    ("judge_book", &[0, 1]),
    ("fresh", &[0, 9]),
    ("receive_command", &[0, 1, 2, 4, 9]),
    ("receive", &[0, 1, 2, 3, 4, 9]),
    ("turn", &[0, 1, 2, 3, 4, 6, 7, 8, 9]),
    ("fast_delivery", &[0, 1, 2, 4, 6, 9]),
    ("log_read", &[0, 1, 2, 3, 4, 6, 7, 9]),
    ("round_end", &[0, 1, 2, 3, 4, 6, 9]),
    ("status", &[0, 1, 2, 4, 9]),
    ("bike", &[0, 1, 2, 4, 9]),
    ("delivery", &[0, 1, 2, 4, 9]),
];

impl Call {
    /// The place of the function among those documented.
    fn place(&self) -> usize {
        match self {
            Call::JudgeTable => 0,
            Call::JudgeBook => 1,
            Call::Fresh => 2,
            Call::ReceiveCommand { .. } => 3,
            Call::Receive { .. } => 4,
            Call::Turn { .. } => 5,
            Call::FastDelivery { .. } => 6,
            Call::LogRead => 7,
            Call::RoundEnd => 8,
            Call::Status => 9,
            Call::Bike { .. } => 10,
            Call::Delivery { .. } => 11,
        }
    }

    pub fn name(&self) -> &'static str {
        DOCUMENTED[self.place()].0
    }

    pub fn answers(&self) -> &'static [u32] {
        DOCUMENTED[self.place()].1
    }

    pub fn has_log(&self) -> bool {
        matches!(self, Call::Turn { .. } | Call::LogRead | Call::RoundEnd)
    }
}

/// Something that answers the calls on what is lent.
pub trait Engine {
    fn call(&mut self, call: &Call, lent: &mut Lent) -> u32;
}
