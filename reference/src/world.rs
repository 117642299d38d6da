//! The world of all sites: their states, the log, and the messages that correct sites have sent.

use crate::log::{self, Entry};
use crate::message::{Message, MessageKind};
use crate::refusal::{self, Refusal};
use crate::site::{is_round, Rules, Site};
use crate::step::Step;
use crate::Set;
use std::collections::{BTreeMap, BTreeSet};

/// The a of step 02 is 1 to 64.
pub const MOST_ACKNOWLEDGMENTS: usize = 64;

#[derive(Clone, Debug)]
pub struct World {
    pub rules: Rules,
    pub faulty: BTreeSet<usize>,
    /// Every site by number; those of faulty sites stay as they started.
    pub sites: Vec<Site>,
    pub log: Vec<Entry>,
    /// The acknowledgments each correct site sent in each round, by site and round, in order.
    pub acknowledgments: BTreeMap<(usize, usize), Vec<Set>>,
    /// The check message each correct site sent in each round, by site and round.
    pub checks: BTreeMap<(usize, usize), Set>,
}

fn unless(holds: bool, refusal: Refusal) -> Result<(), Refusal> {
    if holds {
        Ok(())
    } else {
        Err(refusal)
    }
}

impl World {
    /// The start of a run.
    pub fn start(rules: Rules, faulty: BTreeSet<usize>) -> World {
        let sites = (0..rules.table.sites()).map(|_| Site::start()).collect();
        World { rules, faulty, sites, log: Vec::new(), acknowledgments: BTreeMap::new(), checks: BTreeMap::new() }
    }

    /// The correct sites in number order.
    pub fn correct(&self) -> Vec<usize> {
        (0..self.sites.len()).filter(|site| !self.faulty.contains(site)).collect()
    }

    /// One step, or the number that refuses it; a refused step changes nothing.
    pub fn step(&mut self, step: &Step) -> Result<(), Refusal> {
        self.check_range(step)?;
        self.check_role(step)?;
        match step {
            Step::Command { to, command } => {
                let (rules, site) = self.site(*to)?;
                site.receive_command(rules, *command)
            }
            Step::Acknowledgment { to, from, round, a } => self.bring_acknowledgment(*to, *from, *round, *a),
            Step::Check { to, from, round } => self.bring_check(*to, *from, *round),
            Step::FaultyAcknowledgment { to, from, round, set } => {
                self.bring(*to, *from, MessageKind::Acknowledgment, *round, set.clone())
            }
            Step::FaultyCheck { to, from, round, set } => {
                self.bring(*to, *from, MessageKind::Check, *round, set.clone())
            }
            Step::FaultyEntry { from, round, nc, c } => {
                self.append(Entry { site: *from, round: *round, nc: nc.clone(), c: c.clone() })
            }
            Step::Turn { site } => self.turn(*site),
            Step::FastDelivery { site, command } => {
                let (rules, site) = self.site(*site)?;
                site.fast_delivery(rules, *command)
            }
            Step::LogRead { site } => self.log_read(*site),
            Step::RoundEnd { site } => self.round_end(*site),
        }
    }

    /// Refusal 4: a site, command, round or a out of range, or a set beyond the book.
    fn check_range(&self, step: &Step) -> Result<(), Refusal> {
        let is_site = |site: &usize| *site < self.sites.len();
        let is_command = |command: &usize| *command < self.rules.book.count();
        let holds = |set: &Set| self.rules.book.holds(set);
        let fits = match step {
            Step::Command { to, command } => is_site(to) && is_command(command),
            Step::Acknowledgment { to, from, round, a } => {
                is_site(to) && is_site(from) && is_round(*round) && (1..=MOST_ACKNOWLEDGMENTS).contains(a)
            }
            Step::Check { to, from, round } => is_site(to) && is_site(from) && is_round(*round),
            Step::FaultyAcknowledgment { to, from, round, set } | Step::FaultyCheck { to, from, round, set } => {
                is_site(to) && is_site(from) && is_round(*round) && holds(set)
            }
            Step::FaultyEntry { from, round, nc, c } => {
                is_site(from) && (1..=log::MOST_ENTRY_ROUND).contains(round) && holds(nc) && holds(c)
            }
            Step::FastDelivery { site, command } => is_site(site) && is_command(command),
            Step::Turn { site } | Step::LogRead { site } | Step::RoundEnd { site } => is_site(site),
        };
        unless(fits, refusal::RANGE)
    }

    /// Refusal 5: a receiver is correct; the sender is correct in 02 and 03 and faulty in 04, 05 and 06.
    fn check_role(&self, step: &Step) -> Result<(), Refusal> {
        let is_faulty = |site: &usize| self.faulty.contains(site);
        let fits = match step {
            Step::Command { to, .. } => !is_faulty(to),
            Step::Acknowledgment { to, from, .. } | Step::Check { to, from, .. } => !is_faulty(to) && !is_faulty(from),
            Step::FaultyAcknowledgment { to, from, .. } | Step::FaultyCheck { to, from, .. } => {
                !is_faulty(to) && is_faulty(from)
            }
            Step::FaultyEntry { from, .. } => is_faulty(from),
            Step::Turn { site }
            | Step::FastDelivery { site, .. }
            | Step::LogRead { site }
            | Step::RoundEnd { site } => !is_faulty(site),
        };
        unless(fits, refusal::ROLE)
    }

    fn site(&mut self, number: usize) -> Result<(&Rules, &mut Site), Refusal> {
        let site = self.sites.get_mut(number).ok_or(refusal::RANGE)?;
        Ok((&self.rules, site))
    }

    /// Brings a message to a site.
    fn bring(&mut self, to: usize, from: usize, kind: MessageKind, round: usize, set: Set) -> Result<(), Refusal> {
        let (rules, site) = self.site(to)?;
        site.receive(rules, from, &Message { kind, round, set })
    }

    /// Brings the a-th acknowledgment that a correct site sent in a round; 6 where it was never sent.
    fn bring_acknowledgment(&mut self, to: usize, from: usize, round: usize, a: usize) -> Result<(), Refusal> {
        let sent = self.acknowledgments.get(&(from, round));
        let message = sent.and_then(|sets| sets.get(a.checked_sub(1)?));
        let set = message.ok_or(refusal::NOT_ENABLED)?.clone();
        self.bring(to, from, MessageKind::Acknowledgment, round, set)
    }

    /// Brings the check message that a correct site sent in a round; 6 where it was never sent.
    fn bring_check(&mut self, to: usize, from: usize, round: usize) -> Result<(), Refusal> {
        let set = self.checks.get(&(from, round)).ok_or(refusal::NOT_ENABLED)?.clone();
        self.bring(to, from, MessageKind::Check, round, set)
    }

    /// Appends a faulty site's entry, judged by the whole log before it.
    fn append(&mut self, entry: Entry) -> Result<(), Refusal> {
        log::judge(&entry, &self.log, &self.rules)?;
        self.log.push(entry);
        Ok(())
    }

    fn turn(&mut self, number: usize) -> Result<(), Refusal> {
        let site = self.sites.get_mut(number).ok_or(refusal::RANGE)?;
        let Message { kind, round, set } = site.turn(&self.rules, number, &mut self.log)?;
        match kind {
            MessageKind::Acknowledgment => self.acknowledgments.entry((number, round)).or_default().push(set),
            MessageKind::Check => _ = self.checks.insert((number, round), set),
        }
        Ok(())
    }

    fn log_read(&mut self, number: usize) -> Result<(), Refusal> {
        let site = self.sites.get_mut(number).ok_or(refusal::RANGE)?;
        site.log_read(&self.rules, &self.log)
    }

    fn round_end(&mut self, number: usize) -> Result<(), Refusal> {
        let site = self.sites.get_mut(number).ok_or(refusal::RANGE)?;
        site.round_end(&self.rules, &self.log)
    }
}
