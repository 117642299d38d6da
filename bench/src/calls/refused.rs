//! Calls that are refused, one for each number and more where it matters how late the cause is found.

use super::cases::{middle, with_message, Case};
use compare::lent_calls::{Buffer, Call, Lent};
use compare::site_bytes::{rows_end, span, HEARD, SITE_BYTES};
use reference::MessageKind;

/// The site with one byte changed.
fn with_byte(lent: &Lent, at: usize, byte: u8) -> Lent {
    let mut lent = lent.clone();
    lent.site.lent_mut()[at] = byte;
    lent
}

/// The log with so many more entries of a source in a round, their sets empty.
fn with_entries(lent: &Lent, source: u8, round: u8, count: usize) -> Lent {
    let entry = [&[source, round][..], &[0; 16]].concat();
    let log = [lent.log.lent(), &entry.repeat(count)].concat();
    Lent { log: Buffer::new(&log, 0), ..lent.clone() }
}

/// The same lent with this table.
fn with_table(lent: &Lent, table: &[u8]) -> Lent {
    Lent { table: Buffer::new(table, 0), ..lent.clone() }
}

/// (l) A call refused as 9, 2, 1, 3 and 4: what is lent is at fault.
fn at_fault(lent: &Lent) -> Vec<Case> {
    let receive = Call::Receive { sender: 5 };
    let lent = &with_message(lent, MessageKind::Check, 17, &[0]);
    let (mut short, mut cut, mut log_cut) = (lent.clone(), lent.clone(), lent.clone());
    short.site.cut(SITE_BYTES - 1);
    cut.message.cut(lent.message.length() - 1);
    log_cut.log.cut(lent.log.length() - 1);
    let book = Buffer::new(&[lent.book.lent(), &[3, 5]].concat(), 0);
    let end = rows_end(span(lent.site.lent()));
    let round_34 = with_message(lent, MessageKind::Check, 34, &[0]);
    vec![
        Case::new("refused 9: site short", receive, short, 9),
        Case::new("refused 2: table cut", receive, with_table(lent, &[6]), 2),
        Case::new("refused 2: 6 sites, 2 faults", receive, with_table(lent, &[6, 2]), 2),
        Case::new("refused 1: a 65th command", receive, Lent { book, ..lent.clone() }, 1),
        Case::new("refused 3: message cut", receive, cut, 3),
        Case::new("refused 3: log cut", Call::LogRead, log_cut, 3),
        Case::new("refused 4: site's first byte", receive, with_byte(lent, 0, 0), 4),
        Case::new("refused 4: last delivery", receive, with_byte(lent, HEARD - 1, 1), 4),
        Case::new("refused 4: site's last byte", receive, with_byte(lent, end - 1, 1), 4),
        Case::new("refused 4: sender 6", Call::Receive { sender: 6 }, lent.clone(), 4),
        Case::new("refused 4: check message of round 34", receive, round_34, 4),
        Case::new("refused 4: command 64", Call::ReceiveCommand { command: 64 }, lent.clone(), 4),
    ]
}

/// (l) Steps refused as 6, 7 and 8 at 6 sites.
pub fn all() -> Vec<Case> {
    let mut writer = middle(6, 64);
    let lent = writer.lent(0);
    let five = with_table(&lent, &[5, 1, 0, 0]);
    let mut cases = vec![Case::new("refused 2: 5 sites, 1 fault", Call::JudgeTable, five, 2)];
    cases.extend(at_fault(&lent));
    cases.push(Case::new("refused 6: nothing new", Call::Turn { own: 0 }, lent.clone(), 6));
    cases.push(Case::new("refused 6: not pending", Call::FastDelivery { command: 33 }, lent.clone(), 6));
    cases.push(Case::new("refused 6: no entry", Call::LogRead, lent.clone(), 6));
    cases.push(Case::new("refused 6: not waiting", Call::RoundEnd, lent.clone(), 6));
    writer.command(33);
    let lent = writer.lent(0);
    let thrice = with_entries(&with_byte(&lent, 2, 0), 0, 17, 3);
    cases.push(Case::new("refused 7: two entries unread", Call::Turn { own: 0 }, with_entries(&lent, 0, 17, 2), 7));
    cases.push(Case::new("refused 7: third entry", Call::LogRead, with_byte(&thrice, 2, 98), 7));
    cases.push(Case::new("refused 8: round 33", Call::Turn { own: 0 }, with_byte(&lent, 0, 33), 8));
    cases
}
