//! A stand-in for the engine of the archive: the header's calls carried out on the lent bytes themselves, with sets
//! as words. It shares no code with `site_bytes` and `expected`, so that each of them checks the other;
//! only books and what a command does to a bike are the reference's.

use crate::lent_calls::{Call, Engine, Lent};
use reference::{Book, Register};

const SITE: usize = 3536;
const MESSAGE: usize = 10;
const ENTRY: usize = 18;
const POSITION: usize = 2;
const COUNT: usize = 4;
const SPAN: usize = 6;
const RECEIVED: usize = 8;
const DELIVERED: usize = 16;
const PENDING: usize = 24;
const FAST: usize = 32;
const NC: usize = 40;
const C: usize = 48;
const BIKES: usize = 56;
const DELIVERIES: usize = 312;
const HEARD: usize = 632;

pub struct StandIn;

/// The table and book of a call.
struct Frame {
    sites: usize,
    faults: usize,
    book: Book,
}

fn word(bytes: &[u8], at: usize) -> u64 {
    let mut eight = [0; 8];
    eight.copy_from_slice(&bytes[at..at + 8]);
    u64::from_le_bytes(eight)
}

fn put_word(bytes: &mut [u8], at: usize, word: u64) {
    bytes[at..at + 8].copy_from_slice(&word.to_le_bytes());
}

fn number(bytes: &[u8], at: usize) -> u32 {
    u32::from_le_bytes([bytes[at], bytes[at + 1], bytes[at + 2], bytes[at + 3]])
}

fn short(bytes: &[u8], at: usize) -> usize {
    usize::from(bytes[at]) + 256 * usize::from(bytes[at + 1])
}

fn put_short(bytes: &mut [u8], at: usize, short: usize) {
    bytes[at..at + 2].copy_from_slice(&(short as u16).to_le_bytes());
}

fn log_position(site: &[u8]) -> usize {
    short(site, POSITION)
}

/// How many deliveries are recorded.
fn recorded(site: &[u8]) -> usize {
    short(site, COUNT)
}

/// For how many rounds there are sets heard.
fn span(site: &[u8]) -> usize {
    short(site, SPAN)
}

fn heard_at(sender: usize, round: usize) -> usize {
    HEARD + ((round - 1) * 11 + sender) * 8
}

/// The commands of a set in rising order.
fn members(set: u64) -> impl Iterator<Item = usize> {
    (0..64).filter(move |m| set >> m & 1 == 1)
}

impl Frame {
    fn count(&self) -> usize {
        self.book.count()
    }

    fn holds(&self, set: u64) -> bool {
        set.checked_shr(self.count() as u32).unwrap_or(0) == 0
    }

    fn is_free_of_conflict(&self, set: u64) -> bool {
        members(set).all(|a| members(set).all(|b| !self.book.conflict(a, b)))
    }

    fn enough(&self) -> usize {
        self.sites - self.faults
    }

    /// Whether the bytes are a site, its log position apart.
    fn is_site(&self, site: &[u8]) -> bool {
        let recorded = recorded(site);
        let is_zero = |part: &[u8]| part.iter().all(|byte| *byte == 0);
        (1..=33).contains(&site[0])
            && site[1] <= 1
            && recorded <= self.count()
            && span(site) <= 33
            && (RECEIVED..BIKES).step_by(8).all(|at| self.holds(word(site, at)))
            && (site[1] == 1 || is_zero(&site[NC..BIKES]))
            && (1..=span(site)).all(|round| self.is_row(&site[heard_at(0, round)..heard_at(0, round + 1)]))
            && (BIKES..DELIVERIES).step_by(8).all(|at| number(site, at) <= 999_999)
            && (0..recorded).all(|k| usize::from(site[DELIVERIES + 5 * k]) < self.count())
            && is_zero(&site[DELIVERIES + 5 * recorded..HEARD])
    }

    /// Whether these are the sets heard in one round.
    fn is_row(&self, row: &[u8]) -> bool {
        let (heard, silent) = row.split_at(8 * self.sites);
        heard.chunks(8).all(|set| self.holds(word(set, 0))) && silent.iter().all(|byte| *byte == 0)
    }

    /// What a log read answers for the entry at this place.
    fn judge_entry(&self, log: &[u8], place: usize) -> u32 {
        let entry = &log[ENTRY * place..ENTRY * place + ENTRY];
        let fits = usize::from(entry[0]) < self.sites && (1..=32).contains(&entry[1]);
        if !fits || !self.holds(word(entry, 2)) || !self.holds(word(entry, 10)) {
            return 4;
        }
        7 * u32::from(entries_of(&log[..ENTRY * place], entry[0], entry[1]) >= 2)
    }

    fn has_read_well(&self, site: &[u8], log: &[u8]) -> bool {
        let position = log_position(site);
        ENTRY * position <= log.len() && (0..position).all(|place| self.judge_entry(log, place) == 0)
    }

    /// The sets NC and C of a decided round.
    fn decision(&self, site: &[u8], log: &[u8]) -> Option<(u64, u64)> {
        let mut seen = [0; 11];
        let mut valid: [Option<(u64, u64)>; 11] = [None; 11];
        for entry in log[..ENTRY * log_position(site)].chunks(ENTRY).filter(|entry| entry[1] == site[0]) {
            let source = usize::from(entry[0]);
            seen[source] += 1;
            let stands = seen[source] == 1 && self.is_free_of_conflict(word(entry, 2));
            valid[source] = stands.then_some((word(entry, 2), word(entry, 10)));
            if valid.iter().flatten().count() >= self.enough() {
                let all = valid.iter().flatten().fold(0, |all, (nc, c)| all | nc | c);
                let votes = |m: &usize| valid.iter().flatten().filter(|(nc, _)| nc >> m & 1 == 1).count();
                let is_chosen = |m: &usize| 2 * votes(m) > self.enough();
                let nc = members(all).filter(is_chosen).fold(0, |nc, m| nc | 1 << m);
                return Some((nc, all & !nc));
            }
        }
        None
    }

    /// Executes commands and records their answers; 9 where the record has no room for all of them.
    fn deliver(&self, site: &mut [u8], commands: &[usize]) -> u32 {
        if recorded(site) + commands.len() > self.count() {
            return 9;
        }
        for m in commands {
            let Some(command) = self.book.command(*m) else { continue };
            let mut register = Register::default();
            let at = BIKES + 8 * command.bike;
            register.readings[command.bike] = number(site, at);
            register.dashes[command.bike] = number(site, at + 4);
            let answer = register.execute(command);
            site[at..at + 4].copy_from_slice(&register.readings[command.bike].to_le_bytes());
            site[at + 4..at + 8].copy_from_slice(&register.dashes[command.bike].to_le_bytes());
            let k = recorded(site);
            let at = DELIVERIES + 5 * k;
            site[at] = *m as u8;
            site[at + 1..at + 5].copy_from_slice(&answer.to_le_bytes());
            put_short(site, COUNT, k + 1);
        }
        0
    }
}

/// How many entries of a site and round are in the log.
fn entries_of(log: &[u8], site: u8, round: u8) -> usize {
    log.chunks(ENTRY).filter(|entry| entry[0] == site && entry[1] == round).count()
}

fn receive(site: &mut [u8], set: u64) -> u32 {
    let received = word(site, RECEIVED);
    put_word(site, RECEIVED, received | set);
    0
}

/// Rounds up to this one get their place where they have none: nothing was heard there.
fn hear(site: &mut [u8], sender: usize, round: usize, set: u64) {
    let earlier = span(site);
    if earlier < round {
        site[heard_at(0, earlier + 1)..heard_at(0, round + 1)].fill(0);
        put_short(site, SPAN, round);
    }
    let at = heard_at(sender, round);
    let heard = word(site, at);
    put_word(site, at, heard | set);
}

/// A message with its length and its kind.
fn receive_message(frame: &Frame, site: &mut [u8], sender: usize, message: &[u8]) -> u32 {
    let (round, set) = (usize::from(message[1]), word(message, 2));
    if sender >= frame.sites || !(1..=33).contains(&round) || !frame.holds(set) {
        return 4;
    }
    if message[0] == 1 {
        hear(site, sender, round, set);
    }
    receive(site, set)
}

fn put_message(message: &mut [u8], kind: u8, round: u8, set: u64) {
    (message[0], message[1]) = (kind, round);
    put_word(message, 2, set);
}

fn turn(frame: &Frame, site: &mut [u8], log: &[u8], own: usize, message: &mut [u8], entry: &mut [u8]) -> u32 {
    let (open, pending) = (word(site, RECEIVED) & !word(site, DELIVERED), word(site, PENDING));
    if own >= frame.sites {
        return 4;
    }
    if site[1] == 1 || open & !pending == 0 {
        return 6;
    }
    if frame.is_free_of_conflict(open) {
        put_word(site, PENDING, open);
        put_message(message, 1, site[0], open);
        return 0;
    }
    if entries_of(log, own as u8, site[0]) >= 2 {
        return 7;
    }
    if site[0] == 33 {
        return 8;
    }
    site[1] = 1;
    put_word(site, NC, pending);
    put_word(site, C, open & !pending);
    put_message(message, 2, site[0], open);
    (entry[0], entry[1]) = (own as u8, site[0]);
    put_word(entry, 2, pending);
    put_word(entry, 10, open & !pending);
    0
}

fn fast_delivery(frame: &Frame, site: &mut [u8], command: usize) -> u32 {
    if command >= frame.count() {
        return 4;
    }
    let (bit, round) = (1 << command, usize::from(site[0]));
    let has_heard = |sender: &usize| round <= span(site) && word(site, heard_at(*sender, round)) & bit != 0;
    let senders = (0..frame.sites).filter(has_heard).count();
    if word(site, PENDING) & !word(site, FAST) & bit == 0 || senders < frame.enough() {
        return 6;
    }
    let answer = frame.deliver(site, &[command]);
    if answer == 0 {
        let fast = word(site, FAST);
        put_word(site, FAST, fast | bit);
    }
    answer
}

fn log_read(frame: &Frame, site: &mut [u8], log: &[u8]) -> u32 {
    let position = log_position(site);
    if ENTRY * position == log.len() {
        return 6;
    }
    let answer = frame.judge_entry(log, position);
    if answer == 0 {
        put_short(site, POSITION, position + 1);
    }
    answer
}

fn round_end(frame: &Frame, site: &mut [u8], log: &[u8]) -> u32 {
    if site[1] == 0 {
        return 6;
    }
    let Some((nc, c)) = frame.decision(site, log) else { return 6 };
    let delivered = word(site, DELIVERED);
    let new = !delivered & !word(site, FAST);
    let commands: Vec<usize> = members(nc & new).chain(members(c & new)).collect();
    let answer = frame.deliver(site, &commands);
    if answer == 0 {
        put_word(site, DELIVERED, delivered | nc | c);
        (site[0], site[1]) = (site[0] + 1, 0);
        site[PENDING..BIKES].fill(0);
    }
    answer
}

/// Copies a part of the site out.
fn copy(out: &mut [u8], part: &[u8]) -> u32 {
    out[..part.len()].copy_from_slice(part);
    0
}

/// The call on bytes that are a site, with entries read that are well.
fn step(call: &Call, frame: &Frame, lent: &mut Lent) -> u32 {
    let Lent { log, message, entry, out, .. } = lent;
    let (site, log, out) = (&mut lent.site.lent_mut()[..SITE], log.lent(), out.lent_mut());
    match *call {
        Call::ReceiveCommand { command } if command < frame.count() => receive(site, 1 << command),
        Call::Receive { sender } => receive_message(frame, site, sender, message.lent()),
        Call::Turn { own } => turn(frame, site, log, own, message.lent_mut(), entry.lent_mut()),
        Call::FastDelivery { command } => fast_delivery(frame, site, command),
        Call::LogRead => log_read(frame, site, log),
        Call::RoundEnd => round_end(frame, site, log),
        Call::Status => copy(out, &[site[0], site[1], site[COUNT], site[POSITION], site[POSITION + 1]]),
        Call::Bike { bike } if bike < 32 => copy(out, &site[BIKES + 8 * bike..BIKES + 8 * bike + 8]),
        Call::Delivery { place } if place < recorded(site) => {
            copy(out, &site[DELIVERIES + 5 * place..DELIVERIES + 5 * place + 5])
        }
        _ => 4,
    }
}

/// n and f, where they are within their limits.
fn table(bytes: &[u8]) -> Option<(usize, usize)> {
    let [sites, faults, ..] = bytes else { return None };
    (*faults <= 2 && *sites <= 11 && *sites > 5 * faults).then_some((usize::from(*sites), usize::from(*faults)))
}

fn judge_table(bytes: &[u8]) -> u32 {
    let (Some((sites, faults)), [_, _, low, high, ..]) = (table(bytes), bytes) else { return 2 };
    let mask = usize::from(*low) + 256 * usize::from(*high);
    let fits = mask >> sites == 0 && mask.count_ones() as usize <= faults;
    2 * u32::from(!fits)
}

/// Whether what a call writes into is long enough.
fn has_room(call: &Call, lent: &Lent) -> bool {
    let has_outputs = match call {
        Call::Turn { .. } => lent.message.length() >= MESSAGE && lent.entry.length() >= ENTRY,
        Call::Bike { .. } => lent.out.length() >= 8,
        Call::Status | Call::Delivery { .. } => lent.out.length() >= 5,
        _ => true,
    };
    has_outputs && lent.site.length() >= SITE
}

/// Whether the log or message that a call is lent has its form.
fn has_form(call: &Call, lent: &Lent) -> bool {
    match call {
        Call::Receive { .. } => lent.message.length() == MESSAGE && matches!(lent.message.lent()[0], 1 | 2),
        _ => !call.has_log() || lent.log.length().is_multiple_of(ENTRY),
    }
}

impl Engine for StandIn {
    fn call(&mut self, call: &Call, lent: &mut Lent) -> u32 {
        let book = Book::read(lent.book.lent());
        match call {
            Call::JudgeTable => return judge_table(lent.table.lent()),
            Call::JudgeBook => return u32::from(book.is_err()),
            _ if !has_room(call, lent) => return 9,
            Call::Fresh => {
                let site = lent.site.lent_mut();
                site[..HEARD].fill(0);
                site[0] = 1;
                return 0;
            }
            _ => {}
        }
        let Some((sites, faults)) = table(lent.table.lent()) else { return 2 };
        let Ok(book) = book else { return 1 };
        if !has_form(call, lent) {
            return 3;
        }
        let frame = Frame { sites, faults, book };
        let (site, log) = (&lent.site.lent()[..SITE], lent.log.lent());
        if !frame.is_site(site) || call.has_log() && !frame.has_read_well(site, log) {
            return 4;
        }
        step(call, &frame, lent)
    }
}
