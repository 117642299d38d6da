//! One site and its steps (document 01, "What a site does"; source document 004, algorithm PGB).
//!
//! Every step works on any state, whether a run can lead to it or not. A refused step changes nothing.

use crate::log::{self, decide, Decision, Entry};
use crate::message::{Message, MessageKind};
use crate::refusal::{self, Refusal};
use crate::{union, without, Book, Register, Set, SiteTable};
use std::collections::BTreeMap;

/// A site's round and the round of a message are 1 to 33.
pub const MOST_ROUND: usize = 33;

/// What all sites hold alike: the site table and the book.
#[derive(Clone, Debug, PartialEq, Eq)]
pub struct Rules {
    pub table: SiteTable,
    pub book: Book,
}

/// The sets a waiting site proposed.
#[derive(Clone, Debug, PartialEq, Eq)]
pub struct Proposal {
    pub nc: Set,
    pub c: Set,
}

#[derive(Clone, Debug, PartialEq, Eq)]
pub enum Phase {
    Acknowledging,
    Waiting(Proposal),
}

/// A delivered command with the answer recorded for it.
#[derive(Clone, Copy, Debug, PartialEq, Eq)]
pub struct Delivery {
    pub command: usize,
    pub answer: i32,
}

#[derive(Clone, Debug, PartialEq, Eq)]
pub struct Site {
    pub received: Set,
    pub g_del: Set,
    pub pending: Set,
    pub g_ack_del: Set,
    pub round: usize,
    pub phase: Phase,
    pub log_position: usize,
    /// The acknowledgments heard, by round and sender; several of one sender in one round are united.
    pub heard: BTreeMap<(usize, usize), Set>,
    pub register: Register,
    pub deliveries: Vec<Delivery>,
}

/// Whether a round of a message is in range.
pub fn is_round(round: usize) -> bool {
    (1..=MOST_ROUND).contains(&round)
}

impl Site {
    /// A site at the start of a run.
    pub fn start() -> Site {
        Site {
            received: Set::new(),
            g_del: Set::new(),
            pending: Set::new(),
            g_ack_del: Set::new(),
            round: 1,
            phase: Phase::Acknowledging,
            log_position: 0,
            heard: BTreeMap::new(),
            register: Register::default(),
            deliveries: Vec::new(),
        }
    }

    /// Receive a command (lines 6 and 7).
    pub fn receive_command(&mut self, rules: &Rules, command: usize) -> Result<(), Refusal> {
        if command >= rules.book.count() {
            return Err(refusal::RANGE);
        }
        self.received.insert(command);
        Ok(())
    }

    /// Receive a message of any round (lines 8 to 11); an acknowledgment is kept under its sender and its own round.
    pub fn receive(&mut self, rules: &Rules, sender: usize, message: &Message) -> Result<(), Refusal> {
        let Message { kind, round, set } = message;
        if sender >= rules.table.sites() || !is_round(*round) || !rules.book.holds(set) {
            return Err(refusal::RANGE);
        }
        self.received.extend(set);
        if *kind == MessageKind::Acknowledgment {
            self.heard.entry((*round, sender)).or_default().extend(set);
        }
        Ok(())
    }

    /// What was received and not delivered in an earlier round.
    pub fn open(&self) -> Set {
        without(&self.received, &self.g_del)
    }

    /// Line 12: acknowledging, and something received is outside G_del and pending.
    pub fn is_turn_enabled(&self) -> bool {
        let new = without(&self.open(), &self.pending);
        self.phase == Phase::Acknowledging && !new.is_empty()
    }

    /// A turn of site `own` (lines 12 to 18): the message that it sends to all. It acknowledges all that it received
    /// and has not delivered, or sends that as a check message and appends a proposal.
    pub fn turn(&mut self, rules: &Rules, own: usize, log: &mut Vec<Entry>) -> Result<Message, Refusal> {
        if own >= rules.table.sites() {
            return Err(refusal::RANGE);
        }
        if !self.is_turn_enabled() {
            return Err(refusal::NOT_ENABLED);
        }
        let open = self.open();
        if rules.book.is_free_of_conflict(&open) {
            self.pending = open.clone();
            return Ok(Message { kind: MessageKind::Acknowledgment, round: self.round, set: open });
        }
        if log::has_two(log, own, self.round) {
            return Err(refusal::THIRD_ENTRY);
        }
        if self.round > log::MOST_ENTRY_ROUND {
            return Err(refusal::LAST_ROUND);
        }
        let proposal = Proposal { nc: self.pending.clone(), c: without(&open, &self.pending) };
        log.push(Entry { site: own, round: self.round, nc: proposal.nc.clone(), c: proposal.c.clone() });
        self.phase = Phase::Waiting(proposal);
        Ok(Message { kind: MessageKind::Check, round: self.round, set: open })
    }

    /// Line 26: m is pending, not yet delivered fast, and n_ack senders acknowledged it in this round.
    pub fn is_fast_delivery_enabled(&self, rules: &Rules, command: usize) -> bool {
        let senders = (0..rules.table.sites())
            .filter(|sender| self.heard.get(&(self.round, *sender)).is_some_and(|set| set.contains(&command)));
        self.pending.contains(&command) && !self.g_ack_del.contains(&command) && senders.count() >= rules.table.n_ack()
    }

    /// Fast delivery of a command (lines 26 to 29), also possible while waiting.
    pub fn fast_delivery(&mut self, rules: &Rules, command: usize) -> Result<(), Refusal> {
        if command >= rules.book.count() {
            return Err(refusal::RANGE);
        }
        if !self.is_fast_delivery_enabled(rules, command) {
            return Err(refusal::NOT_ENABLED);
        }
        self.has_room_for(1, rules)?;
        self.g_ack_del.insert(command);
        self.deliver(rules, command);
        Ok(())
    }

    /// Read the next log entry, judged by the entries before it.
    pub fn log_read(&mut self, rules: &Rules, log: &[Entry]) -> Result<(), Refusal> {
        let entry = log.get(self.log_position).ok_or(refusal::NOT_ENABLED)?;
        log::judge(entry, self.entries_read(log), rules)?;
        self.log_position += 1;
        Ok(())
    }

    /// The entries before the site's log position.
    pub fn entries_read<'a>(&self, log: &'a [Entry]) -> &'a [Entry] {
        log.get(..self.log_position).unwrap_or(log)
    }

    /// The decision of this site's round, where it is waiting and the entries read decide it.
    pub fn decision(&self, rules: &Rules, log: &[Entry]) -> Option<Decision> {
        match self.phase {
            Phase::Acknowledging => None,
            Phase::Waiting(_) => decide(self.round, self.entries_read(log), rules),
        }
    }

    /// Round end (lines 20 to 24): NCSet, then CSet, each in number order, without G_del and gAck_del.
    pub fn round_end(&mut self, rules: &Rules, log: &[Entry]) -> Result<(), Refusal> {
        let decision = self.decision(rules, log).ok_or(refusal::NOT_ENABLED)?;
        let earlier = union(&self.g_del, &self.g_ack_del);
        let new_nc = without(&decision.nc_set, &earlier);
        let new_c = without(&decision.c_set, &earlier);
        self.has_room_for(new_nc.len() + new_c.len(), rules)?;
        for command in new_nc.into_iter().chain(new_c) {
            self.deliver(rules, command);
        }
        self.g_del.extend(union(&decision.nc_set, &decision.c_set));
        self.round += 1;
        self.pending.clear();
        self.g_ack_del.clear();
        self.phase = Phase::Acknowledging;
        Ok(())
    }

    /// Recorded deliveries never go past the number of commands in the book; no run meets this.
    fn has_room_for(&self, more: usize, rules: &Rules) -> Result<(), Refusal> {
        if self.deliveries.len() + more > rules.book.count() {
            return Err(refusal::ROOM);
        }
        Ok(())
    }

    /// A delivered command is executed on the register and its answer recorded.
    fn deliver(&mut self, rules: &Rules, command: usize) {
        if let Some(sheet_line) = rules.book.command(command) {
            let answer = self.register.execute(sheet_line);
            self.deliveries.push(Delivery { command, answer });
        }
    }
}
