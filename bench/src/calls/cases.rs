//! The calls that are measured: each function on sites that runs have led to.

use super::refused;
use crate::workloads::{conflicting_round, full_book, mid_round, propose};
use crate::writer::Writer;
use compare::lent_calls::{Buffer, Call, Lent};
use reference::{Message, MessageKind, Set, Step};

/// A call on what is lent, and its answer.
pub struct Case {
    pub name: String,
    pub call: Call,
    pub lent: Lent,
    pub answer: u32,
}

impl Case {
    pub fn new(state: &str, call: Call, lent: Lent, answer: u32) -> Case {
        Case { name: format!("{:<15} {state}", call.name()), call, lent, answer }
    }
}

/// The same lent with a message of this kind and round, of these commands.
pub fn with_message(lent: &Lent, kind: MessageKind, round: usize, commands: &[usize]) -> Lent {
    let message = Message { kind, round, set: commands.iter().copied().collect() };
    Lent { message: Buffer::new(&message.bytes(), 0), ..lent.clone() }
}

/// A message that the last site has sent is received.
fn receive(state: &str, lent: &Lent, kind: MessageKind, round: usize, commands: &[usize]) -> Case {
    let name = match kind {
        MessageKind::Acknowledgment => "acknowledgment",
        MessageKind::Check => "check message",
    };
    let sender = usize::from(lent.table.lent()[0]) - 1;
    let lent = with_message(lent, kind, round, commands);
    Case::new(&format!("{state}, {name}"), Call::Receive { sender }, lent, 0)
}

/// (g) Tables, books and fresh sites.
fn judgments() -> Vec<Case> {
    let lent = Writer::new(11, 0, full_book()).lent(0);
    let empty = Writer::new(11, 0, Vec::new()).lent(0);
    vec![
        Case::new("11 sites", Call::JudgeTable, lent.clone(), 0),
        Case::new("empty", Call::JudgeBook, empty, 0),
        Case::new("64 commands", Call::JudgeBook, lent.clone(), 0),
        Case::new("", Call::Fresh, lent, 0),
    ]
}

/// (h) A fresh site, with a book of 64 commands and with an empty one.
fn on_fresh_sites() -> Vec<Case> {
    let mut writer = Writer::new(6, 0, full_book());
    let state = "fresh, 64 commands";
    let lent = writer.lent(0);
    let mut cases = vec![Case::new(state, Call::ReceiveCommand { command: 0 }, lent.clone(), 0)];
    cases.push(receive(state, &lent, MessageKind::Acknowledgment, 1, &[0]));
    cases.push(receive(state, &lent, MessageKind::Check, 1, &[0]));
    cases.push(Case::new(state, Call::Status, lent.clone(), 0));
    cases.push(Case::new(state, Call::Bike { bike: 5 }, lent, 0));
    writer.command(0);
    cases.push(Case::new("fresh, 64 commands, acknowledges", Call::Turn { own: 0 }, writer.lent(0), 0));
    let (state, lent) = ("fresh, empty book", Writer::new(6, 0, Vec::new()).lent(0));
    cases.push(receive(state, &lent, MessageKind::Acknowledgment, 1, &[]));
    cases.push(receive(state, &lent, MessageKind::Check, 1, &[]));
    cases.push(Case::new(state, Call::Status, lent, 0));
    cases
}

/// In round 17 every site has acknowledged command 32 to every site.
pub fn middle(sites: usize, commands: usize) -> Writer {
    let mut writer = Writer::new(sites, 0, full_book()[..commands].to_vec());
    (1..17).for_each(|round| conflicting_round(&mut writer, round));
    writer.command(32);
    writer.turns();
    writer.acknowledgments(17, 1, &Set::new());
    writer
}

/// (i) A site in the middle of round 17, by sites and commands.
fn in_mid_round(sites: usize, commands: usize) -> Vec<Case> {
    let mut writer = middle(sites, commands);
    let state = &format!("round 17, {sites:>2} sites, {commands} commands");
    let lent = writer.lent(0);
    let mut cases = vec![Case::new(state, Call::ReceiveCommand { command: 33 }, lent.clone(), 0)];
    cases.push(receive(state, &lent, MessageKind::Acknowledgment, 18, &[34]));
    cases.push(receive(state, &lent, MessageKind::Check, 17, &[33]));
    let calls =
        [Call::FastDelivery { command: 32 }, Call::Status, Call::Bike { bike: 5 }, Call::Delivery { place: 10 }];
    cases.extend(calls.map(|call| Case::new(state, call, lent.clone(), 0)));
    writer.command(33);
    cases.push(Case::new(state, Call::Turn { own: 0 }, writer.lent(0), 0));
    writer.turns();
    cases.push(Case::new(state, Call::LogRead, writer.lent(0), 0));
    writer.read_all(0);
    cases.push(Case::new(state, Call::RoundEnd, writer.lent(0), 0));
    cases
}

/// (k) Growth with the log, at 11 sites: it has so many entries, all read but for the one that is read next.
fn with_log(entries: usize) -> Vec<Case> {
    let mut writer = mid_round(entries);
    let (round, state) = (writer.world.sites[0].round, &format!("log of {entries}"));
    let mut cases = vec![Case::new(&format!("{state}, not decided"), Call::RoundEnd, writer.lent(0), 6)];
    writer.read_to(1, entries - 1);
    cases.push(Case::new(state, Call::LogRead, writer.lent(1), 0));
    writer.read_all(8);
    for (command, what) in [(2 * (round - 1), "acknowledges"), (2 * (round - 1) + 1, "proposes")] {
        writer.take(Step::Command { to: 8, command });
        cases.push(Case::new(&format!("{state}, {what}"), Call::Turn { own: 8 }, writer.lent(8), 0));
    }
    let mut writer = mid_round(entries - 1);
    let round = writer.world.sites[0].round;
    propose(&mut writer, &[8], round);
    writer.read_all(0);
    cases.push(Case::new(&format!("{state}, decided"), Call::RoundEnd, writer.lent(0), 0));
    cases
}

/// Every case, in the order of the table.
pub fn all() -> Vec<Case> {
    let mut all = judgments();
    all.extend(on_fresh_sites());
    for (sites, commands) in [(1, 64), (6, 64), (11, 64), (11, 63)] {
        all.extend(in_mid_round(sites, commands));
    }
    // Rows of one function stand together.
    let mut by_log = [50, 100, 200, 400].map(|entries| with_log(entries).into_iter());
    while by_log[0].len() > 0 {
        all.extend(by_log.iter_mut().filter_map(Iterator::next));
    }
    all.extend(refused::all());
    all
}
