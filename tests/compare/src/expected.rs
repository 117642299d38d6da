//! What the header promises of a call, worked out by the reference on the site that the lent bytes are
//! (document 01, "What a site does" and "When a sheet or step is turned down").

use crate::lent_calls::{Buffer, Call, Lent};
use crate::site_bytes::{decode, span, without_empty, SITE_BYTES};
use reference::book::BIKES;
use reference::lent::{self, Turn};
use reference::log::{read_log, ENTRY_BYTES};
use reference::message::MESSAGE_BYTES;
use reference::site::is_round;
use reference::{refusal, Book, Message, MessageKind, Phase, Rules, Site, SiteTable};

/// Causes that are told apart beyond the answer, so that each is met.
pub const FULL: &str = "a full record of deliveries";
pub const SHORT_SITE: &str = "a site too short";
pub const SHORT_MESSAGE: &str = "a message too short to write into";
pub const SHORT_ENTRY: &str = "an entry too short to write into";
pub const SHORT_OUT: &str = "an output too short";
pub const TABLE_CUT: &str = "a site table that is cut";
pub const TABLE_LIMITS: &str = "a site table against its limits";
pub const LENGTH: &str = "a message of another length";
pub const KIND: &str = "a message of an unknown kind";
pub const POSITION: &str = "a log position past the log";
pub const READ: &str = "an entry read that a log read refuses";
pub const OPERAND: &str = "an operand out of range, or an entry to read";
pub const ACKNOWLEDGES: &str = "acknowledges";
pub const PROPOSES: &str = "proposes";
/// Messages that are taken, and those with a sender, a round or a set out of range, by their kinds.
pub const ACKNOWLEDGMENTS: [&str; 4] = [
    "an acknowledgment",
    "an acknowledgment of a sender out of range",
    "an acknowledgment of a round out of range",
    "an acknowledgment beyond the book",
];
pub const CHECKS: [&str; 4] = [
    "a check message",
    "a check message of a sender out of range",
    "a check message of a round out of range",
    "a check message beyond the book",
];
const PLAIN: &str = "";

/// A refusal's number and its cause.
type Refused = (u32, &'static str);

/// What is written at the front of each output.
#[derive(Clone, Debug, Default)]
pub struct Outputs {
    pub message: Vec<u8>,
    pub entry: Vec<u8>,
    pub out: Vec<u8>,
}

/// A refusal or success, how it came about, and all that is written.
#[derive(Clone, Debug)]
pub struct Outcome {
    pub answer: u32,
    pub cause: &'static str,
    /// The later site and its span, where the call changes it.
    pub site: Option<(Site, usize)>,
    pub outputs: Outputs,
}

impl Outcome {
    /// An answer that goes with nothing written.
    fn alone(answer: u32, cause: &'static str) -> Outcome {
        Outcome { answer, cause, site: None, outputs: Outputs::default() }
    }
}

/// Which lent buffer is too short for the call, if one is.
fn too_short(call: &Call, lent: &Lent) -> Option<&'static str> {
    let (message, entry, out) = match call {
        Call::Turn { .. } => (MESSAGE_BYTES, ENTRY_BYTES, 0),
        Call::Status | Call::Delivery { .. } => (0, 0, 5),
        Call::Bike { .. } => (0, 0, 8),
        _ => (0, 0, 0),
    };
    let is_short = |buffer: &Buffer, size: usize| buffer.length() < size;
    let causes = [
        (is_short(&lent.site, SITE_BYTES), SHORT_SITE),
        (is_short(&lent.message, message), SHORT_MESSAGE),
        (is_short(&lent.entry, entry), SHORT_ENTRY),
        (is_short(&lent.out, out), SHORT_OUT),
    ];
    causes.into_iter().find(|(is_short, _)| *is_short).map(|(_, cause)| cause)
}

/// What is to come of a call; causes in the order 9, 2, 1, 3, 4, 6, 7, 8, and 9 again for a full record.
pub fn expected(call: &Call, lent: &Lent) -> Outcome {
    match call {
        Call::JudgeTable => match SiteTable::read_marked(lent.table.lent()) {
            Ok(_) => return Outcome::alone(0, PLAIN),
            Err(number) => return Outcome::alone(number, cause_of_table(&lent.table, 4)),
        },
        Call::JudgeBook => return Outcome::alone(Book::read(lent.book.lent()).err().unwrap_or(0), PLAIN),
        _ => {}
    }
    if let Some(cause) = too_short(call, lent) {
        return Outcome::alone(refusal::ROOM, cause);
    }
    match call {
        Call::Fresh => Outcome { site: Some((Site::start(), 0)), ..Outcome::alone(0, PLAIN) },
        _ => expected_on_site(call, lent).unwrap_or_else(|(number, cause)| Outcome::alone(number, cause)),
    }
}

fn cause_of_table(table: &Buffer, size: usize) -> &'static str {
    if table.length() < size {
        TABLE_CUT
    } else {
        TABLE_LIMITS
    }
}

/// The table and book of a call of one site.
fn rules(lent: &Lent) -> Result<Rules, Refused> {
    lent::rules(lent.table.lent(), lent.book.lent()).map_err(|number| match number {
        refusal::HEADER => (number, cause_of_table(&lent.table, 2)),
        _ => (number, PLAIN),
    })
}

/// Whether the message or log that a call is lent has its form.
fn judge_form(call: &Call, lent: &Lent) -> Result<(), Refused> {
    if let (Call::Receive { .. }, Err(number)) = (call, Message::read(lent.message.lent())) {
        return Err((number, if lent.message.length() == MESSAGE_BYTES { KIND } else { LENGTH }));
    }
    if call.has_log() {
        read_log(lent.log.lent()).map_err(|number| (number, PLAIN))?;
    }
    Ok(())
}

/// What is to come of a call of one site whose buffers are long enough.
fn expected_on_site(call: &Call, lent: &Lent) -> Result<Outcome, Refused> {
    let rules = rules(lent)?;
    judge_form(call, lent)?;
    let mut site = decode(lent.site.lent(), &rules).map_err(|reason| (refusal::RANGE, reason))?;
    let before = site.clone();
    let (cause, outputs) = step(call, &mut site, &rules, lent)
        .map_err(|number| (number, cause_of(call, number, &before, &rules, lent)))?;
    let is_changed = !matches!(call, Call::Status | Call::Bike { .. } | Call::Delivery { .. });
    let later = is_changed.then(|| (without_empty(site), later_span(call, lent)));
    Ok(Outcome { answer: 0, cause, site: later, outputs })
}

/// The span after a call: only an acknowledgment changes it, where it does not reach the acknowledgment's round.
fn later_span(call: &Call, lent: &Lent) -> usize {
    let span = span(lent.site.lent());
    match (call, Message::read(lent.message.lent())) {
        (Call::Receive { .. }, Ok(Message { kind: MessageKind::Acknowledgment, round, .. })) => span.max(round),
        _ => span,
    }
}

/// Which of the causes of a number it was.
fn cause_of(call: &Call, number: u32, site: &Site, rules: &Rules, lent: &Lent) -> &'static str {
    let entries = read_log(lent.log.lent()).unwrap_or_default();
    match (number, call) {
        (refusal::ROOM, _) => FULL,
        (refusal::RANGE, Call::Receive { sender }) => cause_of_message(*sender, rules, lent),
        (refusal::RANGE, _) if call.has_log() && site.log_position > entries.len() => POSITION,
        (refusal::RANGE, _) if call.has_log() && lent::check_entries_read(site, rules, &entries).is_err() => READ,
        (refusal::RANGE, _) => OPERAND,
        _ => PLAIN,
    }
}

/// Of which kind a message is, and what of it is out of range first.
fn cause_of_message(sender: usize, rules: &Rules, lent: &Lent) -> &'static str {
    let Ok(message) = Message::read(lent.message.lent()) else { return PLAIN };
    let causes = match message.kind {
        MessageKind::Acknowledgment => ACKNOWLEDGMENTS,
        MessageKind::Check => CHECKS,
    };
    let fits = [sender < rules.table.sites(), is_round(message.round), rules.book.holds(&message.set)];
    causes[fits.iter().position(|fits| !fits).map_or(0, |place| place + 1)]
}

/// The call on the reference's site: how it came about and what is written out.
fn step(call: &Call, site: &mut Site, rules: &Rules, lent: &Lent) -> Result<(&'static str, Outputs), u32> {
    let (log, message) = (lent.log.lent(), lent.message.lent());
    let mut cause = PLAIN;
    match *call {
        Call::Turn { own } => return turn(site, rules, own, log),
        Call::Status | Call::Bike { .. } | Call::Delivery { .. } => {
            return Ok((PLAIN, Outputs { out: access(call, site)?, ..Outputs::default() }))
        }
        Call::ReceiveCommand { command } => lent::receive_command(site, rules, command),
        Call::Receive { sender } => {
            cause = cause_of_message(sender, rules, lent);
            lent::receive(site, rules, sender, message)
        }
        Call::FastDelivery { command } => lent::fast_delivery(site, rules, command),
        Call::LogRead => lent::log_read(site, rules, log),
        Call::RoundEnd => lent::round_end(site, rules, log),
        Call::JudgeTable | Call::JudgeBook | Call::Fresh => Ok(()),
    }?;
    Ok((cause, Outputs::default()))
}

fn turn(site: &mut Site, rules: &Rules, own: usize, log: &[u8]) -> Result<(&'static str, Outputs), u32> {
    let Turn { message, entry } = lent::turn(site, rules, own, log)?;
    let cause = if entry.is_some() { PROPOSES } else { ACKNOWLEDGES };
    Ok((cause, Outputs { message, entry: entry.unwrap_or_default(), out: Vec::new() }))
}

/// What the calls that only look at a site write out.
fn access(call: &Call, site: &Site) -> Result<Vec<u8>, u32> {
    match call {
        Call::Bike { bike } if *bike < BIKES => {
            let (reading, dash) = (site.register.readings[*bike], site.register.dashes[*bike]);
            Ok([reading.to_le_bytes(), dash.to_le_bytes()].concat())
        }
        Call::Delivery { place } if *place < site.deliveries.len() => {
            let delivery = site.deliveries[*place];
            Ok([&[delivery.command as u8][..], &delivery.answer.to_le_bytes()].concat())
        }
        Call::Status => {
            let phase = u8::from(site.phase != Phase::Acknowledging);
            let numbers = [site.round as u8, phase, site.deliveries.len() as u8];
            Ok([&numbers[..], &(site.log_position as u16).to_le_bytes()].concat())
        }
        _ => Err(refusal::RANGE),
    }
}
