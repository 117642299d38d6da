//! The common log and how a round is decided (document 01, "How a round is decided";
//! source document 004, algorithm C_absign).

use crate::refusal::{self, Refusal};
use crate::site::Rules;
use crate::{bytes_of_set, set_of_bytes, union, without, Set};
use std::collections::BTreeMap;

/// A proposal in the log: source, round, and the sets NC and C.
#[derive(Clone, Debug, PartialEq, Eq)]
pub struct Entry {
    pub site: usize,
    pub round: usize,
    pub nc: Set,
    pub c: Set,
}

/// Entries are proposed in rounds 1 to 32.
pub const MOST_ENTRY_ROUND: usize = 32;
/// A log entry is 18 bytes.
pub const ENTRY_BYTES: usize = 18;

impl Entry {
    pub fn bytes(&self) -> Vec<u8> {
        let mut bytes = vec![self.site as u8, self.round as u8];
        bytes.extend(bytes_of_set(&self.nc));
        bytes.extend(bytes_of_set(&self.c));
        bytes
    }
}

/// The entries of a lent log; one that ends in a cut entry is refused as 3.
pub fn read_log(bytes: &[u8]) -> Result<Vec<Entry>, Refusal> {
    let mut entries = Vec::new();
    let mut rest = bytes;
    while !rest.is_empty() {
        let cut = refusal::FORM;
        let ([site, round], after) = rest.split_first_chunk::<2>().ok_or(cut)?;
        let (nc, after) = after.split_first_chunk::<8>().ok_or(cut)?;
        let (c, after) = after.split_first_chunk::<8>().ok_or(cut)?;
        let (nc, c) = (set_of_bytes(*nc), set_of_bytes(*c));
        entries.push(Entry { site: usize::from(*site), round: usize::from(*round), nc, c });
        rest = after;
    }
    Ok(entries)
}

/// Whether two entries of this source and round are among these: one more would be a third.
pub fn has_two(entries: &[Entry], site: usize, round: usize) -> bool {
    entries.iter().filter(|entry| entry.site == site && entry.round == round).count() >= 2
}

/// Whether the log takes this entry after those before it: 4 for its numbers and sets, 7 for a third.
pub fn judge(entry: &Entry, before: &[Entry], rules: &Rules) -> Result<(), Refusal> {
    let numbers_fit = entry.site < rules.table.sites() && (1..=MOST_ENTRY_ROUND).contains(&entry.round);
    if !numbers_fit || !rules.book.holds(&entry.nc) || !rules.book.holds(&entry.c) {
        return Err(refusal::RANGE);
    }
    if has_two(before, entry.site, entry.round) {
        return Err(refusal::THIRD_ENTRY);
    }
    Ok(())
}

/// What a decided round delivers, and how it was decided.
#[derive(Clone, Debug, PartialEq, Eq)]
pub struct Decision {
    /// The log position of the deciding entry.
    pub place: usize,
    pub nc_set: Set,
    pub c_set: Set,
    /// Sources that sent an entry of this round up to the deciding one and do not stand.
    pub excluded: Set,
}

/// The standing of each source of one round; none for a source that was struck out.
type Standing<'a> = BTreeMap<usize, Option<&'a Entry>>;

/// The standing after one more entry: a second entry or a conflict in NC strikes the source out.
fn add_entry<'a>(standing: &mut Standing<'a>, entry: &'a Entry, rules: &Rules) {
    let is_first = !standing.contains_key(&entry.site);
    let stands = is_first && rules.book.is_free_of_conflict(&entry.nc);
    standing.insert(entry.site, stands.then_some(entry));
}

/// The decision of a round by these entries: the first one after which n_chk sources stand decides,
/// later ones do not count.
pub fn decide(round: usize, entries: &[Entry], rules: &Rules) -> Option<Decision> {
    let mut standing = Standing::new();
    for (place, entry) in entries.iter().enumerate() {
        if entry.round != round {
            continue;
        }
        add_entry(&mut standing, entry, rules);
        let valid: Vec<&Entry> = standing.values().flatten().copied().collect();
        if valid.len() >= rules.table.n_chk() {
            let struck = standing.iter().filter(|(_, entry)| entry.is_none());
            let excluded = struck.map(|(source, _)| *source).collect();
            let (nc_set, c_set) = settle(&valid, rules);
            return Some(Decision { place, nc_set, c_set, excluded });
        }
    }
    None
}

/// NCSet holds what a majority of the NC sets hold, CSet everything else (lines 5 and 6 of C_absign).
fn settle(valid: &[&Entry], rules: &Rules) -> (Set, Set) {
    let mut all = Set::new();
    for entry in valid {
        all.extend(union(&entry.nc, &entry.c));
    }
    let supporters = |m: &usize| valid.iter().filter(|entry| entry.nc.contains(m)).count();
    let nc_set: Set = all.iter().filter(|m| supporters(m) >= rules.table.majority()).copied().collect();
    let c_set = without(&all, &nc_set);
    (nc_set, c_set)
}
