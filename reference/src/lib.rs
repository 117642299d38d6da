//! The dash register's generic broadcast, written plainly from document 01 and source document 004.
//!
//! Clear rather than fast: sets are ordinary sets, the log is a list, and a round's decision is worked out
//! from the entries each time it is asked for. The proved program is compared with this one.

pub mod book;
pub mod common_sequence;
pub mod lent;
pub mod log;
pub mod message;
pub mod print;
pub mod refusal;
pub mod register;
pub mod run;
pub mod site;
pub mod step;
pub mod table;
pub mod world;

use std::collections::BTreeSet;

/// A set of command numbers.
pub type Set = BTreeSet<usize>;

pub use book::{Book, Command, Kind};
pub use common_sequence::common_sequence;
pub use log::{decide, Decision, Entry};
pub use message::{Message, MessageKind};
pub use refusal::Refusal;
pub use register::Register;
pub use run::{play, play_run, Played, MOST_BYTES};
pub use site::{Delivery, Phase, Proposal, Rules, Site};
pub use step::Step;
pub use table::SiteTable;
pub use world::World;

/// The set that 8 bytes hold, bit m of the little-endian number for command m.
pub fn set_of_bytes(bytes: [u8; 8]) -> Set {
    let bits = u64::from_le_bytes(bytes);
    (0..64).filter(|m| bits >> m & 1 == 1).collect()
}

/// The 8 bytes of a set; a number from 64 on has no bit and is left out.
pub fn bytes_of_set(set: &Set) -> [u8; 8] {
    let bits = set.iter().filter(|m| **m < 64).fold(0u64, |bits, m| bits | 1 << m);
    bits.to_le_bytes()
}

/// What both sets hold together.
pub fn union(left: &Set, right: &Set) -> Set {
    left.union(right).copied().collect()
}

/// What the left set holds and the right one does not.
pub fn without(left: &Set, right: &Set) -> Set {
    left.difference(right).copied().collect()
}
