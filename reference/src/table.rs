//! The site table and its thresholds (document 01, "Site table and thresholds").

use crate::refusal::{self, Refusal};
use std::collections::BTreeSet;

/// How many sites there are, and how many of them may be faulty.
#[derive(Clone, Copy, Debug, PartialEq, Eq)]
pub struct SiteTable {
    sites: usize,
    faults: usize,
}

impl SiteTable {
    pub const MOST_SITES: usize = 11;
    pub const MOST_FAULTS: usize = 2;

    /// A table within its limits: 1 to 11 sites, at most 2 faults, at least 5f + 1 sites.
    pub fn new(sites: usize, faults: usize) -> Result<SiteTable, Refusal> {
        let sites_fit = (1..=Self::MOST_SITES).contains(&sites);
        if sites_fit && faults <= Self::MOST_FAULTS && sites > 5 * faults {
            Ok(SiteTable { sites, faults })
        } else {
            Err(refusal::HEADER)
        }
    }

    /// The table whose first bytes are n and f, as in a run's header; 2 where they are cut.
    pub fn read(bytes: &[u8]) -> Result<SiteTable, Refusal> {
        let [sites, faults] = *bytes.first_chunk().ok_or(refusal::HEADER)?;
        SiteTable::new(usize::from(sites), usize::from(faults))
    }

    /// The same with the faulty sites, which the next 2 bytes mark.
    pub fn read_marked(bytes: &[u8]) -> Result<(SiteTable, BTreeSet<usize>), Refusal> {
        let [_, _, low, high] = *bytes.first_chunk().ok_or(refusal::HEADER)?;
        let table = SiteTable::read(bytes)?;
        Ok((table, table.faulty(u16::from_le_bytes([low, high]))?))
    }

    /// The faulty sites that a mask marks: at most f of them, none from n on.
    fn faulty(&self, mask: u16) -> Result<BTreeSet<usize>, Refusal> {
        let marked: BTreeSet<usize> = (0..16).filter(|i| mask >> i & 1 == 1).collect();
        if marked.len() <= self.faults && marked.iter().all(|i| *i < self.sites) {
            Ok(marked)
        } else {
            Err(refusal::HEADER)
        }
    }

    pub fn sites(&self) -> usize {
        self.sites
    }

    pub fn faults(&self) -> usize {
        self.faults
    }

    /// How many senders must acknowledge a command for its fast delivery.
    pub fn n_ack(&self) -> usize {
        self.sites - self.faults
    }

    /// How many sources must stand for a round to be decided.
    pub fn n_chk(&self) -> usize {
        self.sites - self.faults
    }

    /// The rounded-up half of n_chk + 1 (source document 004, line 5 of C_absign).
    pub fn majority(&self) -> usize {
        (self.n_chk() + 1).div_ceil(2)
    }
}
