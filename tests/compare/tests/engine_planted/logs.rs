//! What is made of a lent log.

use crate::{commands, position, right, Fault};
use compare::lent_calls::{Buffer, Call, Lent};

pub const FAULTS: &[(&str, Fault)] = &[
    ("a third entry is judged by the entries read", third_entry_of_the_entries_read),
    ("a third entry counts only entries in range", third_entry_only_in_range),
    ("a log read takes round 33", log_read_takes_round_33),
    ("a log position that runs ahead", log_position_runs_ahead),
];

/// The call with another log, which is put back afterwards.
fn with_log(call: &Call, lent: &mut Lent, log: &[u8]) -> u32 {
    let kept = std::mem::replace(&mut lent.log, Buffer::new(log, 0));
    let answer = right(call, lent);
    lent.log = kept;
    answer
}

fn third_entry_of_the_entries_read(call: &Call, lent: &mut Lent) -> u32 {
    match (call, lent.log.lent().get(..18 * position(lent)).map(<[u8]>::to_vec)) {
        (Call::Turn { .. }, Some(log)) if lent.log.length().is_multiple_of(18) => with_log(call, lent, &log),
        _ => right(call, lent),
    }
}

fn third_entry_only_in_range(call: &Call, lent: &mut Lent) -> u32 {
    if !matches!(call, Call::Turn { .. }) || !lent.log.length().is_multiple_of(18) {
        return right(call, lent);
    }
    let (count, read) = (commands(lent), position(lent));
    let is_within = |set: &[u8]| (count..64).all(|m| set[m / 8] >> (m % 8) & 1 == 0);
    let entries = lent.log.lent().chunks(18).enumerate();
    let kept = entries.filter(|(place, entry)| *place < read || is_within(&entry[2..10]) && is_within(&entry[10..18]));
    let log: Vec<u8> = kept.flat_map(|(_, entry)| entry.to_vec()).collect();
    with_log(call, lent, &log)
}

fn log_read_takes_round_33(call: &Call, lent: &mut Lent) -> u32 {
    let log: Vec<u8> = lent.log.lent().to_vec();
    let at = 18 * position(lent);
    if *call == Call::LogRead && log.get(at + 1) == Some(&33) && log.len().is_multiple_of(18) {
        let mut other = log;
        other[at + 1] = 32;
        return with_log(call, lent, &other);
    }
    right(call, lent)
}

fn log_position_runs_ahead(call: &Call, lent: &mut Lent) -> u32 {
    let answer = right(call, lent);
    if *call == Call::LogRead && answer == 0 && lent.site.lent()[1] == 1 {
        lent.site.lent_mut()[2] += 1;
    }
    answer
}
