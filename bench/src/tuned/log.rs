//! The log, kept by round and source, and the decision of each round (document 01, "How a round is decided").

use super::{ROUNDS, SITES};

/// No log position reaches this: a run's log has at most 704 entries.
const NEVER: u16 = u16::MAX;

/// Sources of one round as bits, and when the round was decided.
#[derive(Clone, Copy)]
struct Standing {
    /// Sources with an entry.
    seen: u16,
    /// Sources with a second entry.
    twice: u16,
    /// Sources with exactly one entry, and no conflict in its NC.
    valid: u16,
    /// How many entries the log had with the deciding one.
    decided_at: u16,
}

const NOTHING_SEEN: Standing = Standing { seen: 0, twice: 0, valid: 0, decided_at: NEVER };

/// What a decided round delivers.
#[derive(Clone, Copy)]
pub struct Decision {
    pub nc: u64,
    pub c: u64,
}

/// A log entry; its source and round are where it stands.
#[derive(Clone, Copy)]
pub struct Entry {
    pub nc: u64,
    pub c: u64,
}

const EMPTY: Entry = Entry { nc: 0, c: 0 };

pub struct Log {
    pub length: u16,
    n_chk: u32,
    majority: u32,
    standing: [Standing; ROUNDS],
    decisions: [Decision; ROUNDS],
    /// For each round and source its first entry.
    entries: [[Entry; SITES]; ROUNDS],
}

impl Log {
    pub fn new() -> Log {
        let decisions = [Decision { nc: 0, c: 0 }; ROUNDS];
        let (standing, entries) = ([NOTHING_SEEN; ROUNDS], [[EMPTY; SITES]; ROUNDS]);
        Log { length: 0, n_chk: 1, majority: 1, standing, decisions, entries }
    }

    /// An empty log; what stands in the tables of entries and decisions is not looked at before it is written.
    pub fn start(&mut self, n_chk: u8) {
        self.length = 0;
        self.n_chk = u32::from(n_chk);
        self.majority = self.n_chk / 2 + 1;
        self.standing = [NOTHING_SEEN; ROUNDS];
    }

    #[inline(always)]
    pub fn has_two(&self, source: usize, round: usize) -> bool {
        self.standing[round].twice >> source & 1 == 1
    }

    /// What a correct source proposed in a round; its check message is both sets together.
    #[inline(always)]
    pub fn proposal(&self, source: usize, round: usize) -> Option<Entry> {
        (self.standing[round].seen >> source & 1 == 1).then(|| self.entries[round][source])
    }

    /// The decision of a round by so many entries of the log.
    #[inline(always)]
    pub fn decision(&self, round: usize, entries_read: u16) -> Option<Decision> {
        (self.standing[round].decided_at <= entries_read).then(|| self.decisions[round])
    }

    /// Appends an entry that was judged before.
    #[inline(always)]
    pub fn append(&mut self, source: usize, round: usize, entry: Entry, has_conflict: bool) {
        self.length += 1;
        let standing = &mut self.standing[round];
        let bit = 1u16 << source;
        if standing.seen & bit != 0 {
            standing.twice |= bit;
            standing.valid &= !bit;
            return;
        }
        standing.seen |= bit;
        if has_conflict {
            return;
        }
        standing.valid |= bit;
        self.entries[round][source] = entry;
        if standing.decided_at == NEVER && standing.valid.count_ones() >= self.n_chk {
            standing.decided_at = self.length;
            let valid = standing.valid;
            self.decisions[round] = self.decide(round, valid);
        }
    }

    fn decide(&self, round: usize, valid: u16) -> Decision {
        let mut left = valid;
        let next = || {
            let source = (left != 0).then(|| left.trailing_zeros() as usize)?;
            left &= left - 1;
            Some(self.entries[round][source])
        };
        settle(std::iter::from_fn(next), self.majority)
    }
}

/// NCSet holds what a majority of the valid NC sets hold, CSet everything else of the valid entries.
#[inline(always)]
fn settle(valid: impl Iterator<Item = Entry>, majority: u32) -> Decision {
    // A counter for each command, one word for each of its bits. It starts so that the majority's carry
    // goes past the third bit: a majority is at most 6.
    let start = 8 - majority;
    let mut counters: [u64; 3] = std::array::from_fn(|bit| if start >> bit & 1 == 1 { u64::MAX } else { 0 });
    let (mut nc, mut all) = (0, 0);
    for entry in valid {
        all |= entry.nc | entry.c;
        let mut carry = entry.nc;
        for counter in &mut counters {
            (*counter, carry) = (*counter ^ carry, *counter & carry);
        }
        nc |= carry;
    }
    Decision { nc, c: all & !nc }
}
