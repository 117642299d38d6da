//! The world of all sites and its ten steps (document 01, "A run and its print").
//!
//! What refuses a step is told apart, in document 01's order, only after it is known that something does.

use super::book::Book;
use super::log::{Entry, Log};
use super::print::Printer;
use super::site::{Site, ACKNOWLEDGMENTS};
use super::*;

/// What a byte that names a site stands for.
const CORRECT: u8 = 0;
const FAULTY: u8 = 1;
const NO_SITE: u8 = 2;

pub struct World {
    /// For each byte what it names.
    roles: [u8; 256],
    n: u8,
    n_ack: u8,
    faulty: u32,
    log: Log,
    pub book: Book,
    sites: [Site; SITES],
}

/// Whether a message's round is out of range.
fn is_no_round(round: u8) -> bool {
    round.wrapping_sub(1) >= 33
}

impl World {
    pub fn new() -> World {
        let sites = std::array::from_fn(|_| Site::new());
        let (log, book) = (Log::new(), Book::new());
        World { roles: [NO_SITE; 256], n: 1, n_ack: 1, faulty: 0, log, book, sites }
    }

    /// The start of a run with the book that was read.
    pub fn start(&mut self, n: u8, faults: u8, mask: u16) {
        self.n = n;
        self.n_ack = n - faults;
        self.faulty = mask.count_ones();
        self.log.start(n - faults);
        for (number, role) in self.roles.iter_mut().enumerate().take(SITES) {
            let is_site = number < usize::from(n);
            *role = if is_site { (mask >> number & 1) as u8 } else { NO_SITE };
        }
        self.sites[..usize::from(n)].iter_mut().for_each(Site::start);
    }

    pub fn print_opening(&self, out: &mut Printer) {
        out.put(*b"run ");
        out.put_number(u32::from(self.n));
        out.put(*b" sites ");
        out.put_number(self.faulty);
        out.put(*b" liars ");
        out.put_number(u32::from(self.book.count));
        out.put(*b" commands\n");
    }

    pub fn print_sites(&self, out: &mut Printer) {
        for (number, site) in self.sites.iter().enumerate() {
            if self.roles[number] == CORRECT {
                out.site(number as u8, site.round, site.deliveries());
            }
        }
    }

    /// Takes the steps in order; each refused one prints a line, and refusal 3 ends the reading.
    pub fn play(&mut self, steps: &[u8], out: &mut Printer) {
        let mut rest = steps;
        let mut number = 0;
        while let Some((code, operands)) = rest.split_first() {
            number += 1;
            let Some((refusal, after)) = self.step(*code, operands) else {
                out.step_refused(number, FORM);
                return;
            };
            if refusal != TAKEN {
                out.step_refused(number, refusal);
            }
            rest = after;
        }
    }

    /// One step: its refusal and what follows its operands; none for an unknown code or cut operands.
    #[inline(always)]
    fn step<'a>(&mut self, code: u8, operands: &'a [u8]) -> Option<(Refusal, &'a [u8])> {
        Some(match code {
            0x01 => operands.split_first_chunk().map(|(&[to, m], rest)| (self.receive_command(to, m), rest))?,
            0x02 => {
                let (&[to, from, round, a], rest) = operands.split_first_chunk()?;
                (self.receive_acknowledgment(to, from, round, a), rest)
            }
            0x03 => {
                let (&[to, from, round], rest) = operands.split_first_chunk()?;
                (self.receive_check(to, from, round), rest)
            }
            0x04 => faulty_message(operands).map(|(message, rest)| (self.receive_faulty(true, message), rest))?,
            0x05 => faulty_message(operands).map(|(message, rest)| (self.receive_faulty(false, message), rest))?,
            0x06 => {
                let (operands, rest) = operands.split_first_chunk::<18>()?;
                (self.faulty_entry(operands), rest)
            }
            0x07 => operands.split_first().map(|(site, rest)| (self.turn(*site), rest))?,
            0x08 => operands.split_first_chunk().map(|(&[site, m], rest)| (self.deliver_fast(site, m), rest))?,
            0x09 => operands.split_first().map(|(site, rest)| (self.read_log(*site), rest))?,
            0x0A => operands.split_first().map(|(site, rest)| (self.end_round(*site), rest))?,
            _ => return None,
        })
    }

    #[inline(always)]
    fn role(&self, site: u8) -> u8 {
        self.roles[usize::from(site)]
    }

    /// The refusal of a step whose numbers are in range or not, but for the sites named.
    fn refusal(&self, is_in_range: bool, sites: &[u8], otherwise: Refusal) -> Refusal {
        if !is_in_range || sites.iter().any(|site| self.role(*site) == NO_SITE) {
            RANGE
        } else {
            otherwise
        }
    }

    #[inline(always)]
    fn receive_command(&mut self, to: u8, command: u8) -> Refusal {
        let is_in_range = command < self.book.count;
        if !is_in_range || self.role(to) != CORRECT {
            return self.refusal(is_in_range, &[to], ROLE);
        }
        self.sites[usize::from(to)].received |= 1 << command;
        TAKEN
    }

    #[inline(always)]
    fn receive_acknowledgment(&mut self, to: u8, from: u8, round: u8, a: u8) -> Refusal {
        let after = a.wrapping_sub(1);
        if self.role(to) | self.role(from) == CORRECT {
            if let Some(set) = self.sites[usize::from(from)].acknowledgment(round, after) {
                self.sites[usize::from(to)].hear(from, round, set);
                return TAKEN;
            }
        }
        let is_in_range = !is_no_round(round) && usize::from(after) < ACKNOWLEDGMENTS;
        let is_role = self.role(to) | self.role(from) == CORRECT;
        self.refusal(is_in_range, &[to, from], if is_role { NOT_ENABLED } else { ROLE })
    }

    #[inline(always)]
    fn receive_check(&mut self, to: u8, from: u8, round: u8) -> Refusal {
        let is_in_range = !is_no_round(round);
        if !is_in_range || self.role(to) | self.role(from) != CORRECT {
            return self.refusal(is_in_range, &[to, from], ROLE);
        }
        let Some(entry) = self.log.proposal(usize::from(from), usize::from(round)) else {
            return NOT_ENABLED;
        };
        self.sites[usize::from(to)].received |= entry.nc | entry.c;
        TAKEN
    }

    /// An acknowledgment or a check message of a faulty site.
    #[inline(always)]
    fn receive_faulty(&mut self, is_acknowledgment: bool, message: FaultyMessage) -> Refusal {
        let FaultyMessage { to, from, round, set } = message;
        let is_in_range = !is_no_round(round) && set & !self.book.all == 0;
        if !is_in_range || self.role(to) | (self.role(from) ^ FAULTY) != CORRECT {
            return self.refusal(is_in_range, &[to, from], ROLE);
        }
        let site = &mut self.sites[usize::from(to)];
        if is_acknowledgment {
            site.hear(from, round, set);
        } else {
            site.received |= set;
        }
        TAKEN
    }

    #[inline(always)]
    fn faulty_entry(&mut self, operands: &[u8; 18]) -> Refusal {
        let (source, round) = (operands[0], operands[1]);
        let entry = Entry { nc: word(operands, 2), c: word(operands, 10) };
        let is_in_range = round.wrapping_sub(1) < 32 && (entry.nc | entry.c) & !self.book.all == 0;
        if !is_in_range || self.role(source) != FAULTY {
            return self.refusal(is_in_range, &[source], ROLE);
        }
        let (source, round) = (usize::from(source), usize::from(round));
        if self.log.has_two(source, round) {
            return THIRD_ENTRY;
        }
        let has_conflict = self.book.conflict(entry.nc, entry.nc);
        self.log.append(source, round, entry, has_conflict);
        TAKEN
    }

    /// Lines 12 to 18 of source document 004. A correct site proposes once in a round, so 7 is not met.
    #[inline(always)]
    fn turn(&mut self, number: u8) -> Refusal {
        if self.role(number) != CORRECT {
            return self.refusal(true, &[number], ROLE);
        }
        let site = &mut self.sites[usize::from(number)];
        let open = site.received & !site.delivered;
        let new = open & !site.pending;
        if site.is_waiting || new == 0 {
            return NOT_ENABLED;
        }
        if !self.book.conflict(new, open) {
            site.pending = open;
            site.acknowledge();
            return TAKEN;
        }
        if site.round > 32 {
            return LAST_ROUND;
        }
        site.is_waiting = true;
        let entry = Entry { nc: site.pending, c: new };
        self.log.append(usize::from(number), usize::from(site.round), entry, false);
        TAKEN
    }

    /// Lines 26 to 29 of source document 004.
    #[inline(always)]
    fn deliver_fast(&mut self, number: u8, command: u8) -> Refusal {
        let is_in_range = command < self.book.count;
        if !is_in_range || self.role(number) != CORRECT {
            return self.refusal(is_in_range, &[number], ROLE);
        }
        let site = &mut self.sites[usize::from(number)];
        let bit = 1u64 << command;
        let is_open = site.pending & !site.fast & bit != 0;
        if !is_open || site.senders(command) < u64::from(self.n_ack) {
            return NOT_ENABLED;
        }
        if !site.has_room(&self.book, 1) {
            return ROOM;
        }
        site.fast |= bit;
        site.deliver(&self.book, u32::from(command));
        TAKEN
    }

    #[inline(always)]
    fn read_log(&mut self, number: u8) -> Refusal {
        if self.role(number) != CORRECT {
            return self.refusal(true, &[number], ROLE);
        }
        let site = &mut self.sites[usize::from(number)];
        if site.log_position >= self.log.length {
            return NOT_ENABLED;
        }
        site.log_position += 1;
        TAKEN
    }

    /// Lines 20 to 24 of source document 004: NCSet, then CSet, each in number order.
    #[inline(always)]
    fn end_round(&mut self, number: u8) -> Refusal {
        if self.role(number) != CORRECT {
            return self.refusal(true, &[number], ROLE);
        }
        let site = &mut self.sites[usize::from(number)];
        let decision = self.log.decision(usize::from(site.round), site.log_position);
        let Some(decision) = decision.filter(|_| site.is_waiting) else {
            return NOT_ENABLED;
        };
        let earlier = site.delivered | site.fast;
        let news = [decision.nc & !earlier, decision.c & !earlier];
        if !site.has_room(&self.book, (news[0] | news[1]).count_ones()) {
            return ROOM;
        }
        for mut left in news {
            while left != 0 {
                site.deliver(&self.book, left.trailing_zeros());
                left &= left - 1;
            }
        }
        site.next_round(decision.nc | decision.c);
        TAKEN
    }
}

/// The operands of steps 04 and 05.
struct FaultyMessage {
    to: u8,
    from: u8,
    round: u8,
    set: u64,
}

#[inline(always)]
fn faulty_message(operands: &[u8]) -> Option<(FaultyMessage, &[u8])> {
    let (operands, rest) = operands.split_first_chunk::<11>()?;
    let [to, from, round, ..] = *operands;
    Some((FaultyMessage { to, from, round, set: word(operands, 3) }, rest))
}
