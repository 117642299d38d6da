//! What a site makes of a message.

use crate::{right, row, span, tried, Fault};
use compare::lent_calls::{Buffer, Call, Lent};

pub const FAULTS: &[(&str, Fault)] = &[
    ("a longer message is used by its first bytes", longer_message_taken),
    ("a cut message is filled up", cut_message_filled_up),
    ("kind 0 is taken for an acknowledgment", kind_0_taken),
    ("kind 3 is taken for a check message", kind_3_taken),
    ("the kind loses its high bits", high_bits_of_the_kind_lost),
    ("round 0 of an acknowledgment is taken", round_0_taken),
    ("round 34 of an acknowledgment is taken", round_34_taken),
    ("the round of a check message is not judged", round_of_a_check_not_judged),
    ("the sender of a check message is not judged", sender_of_a_check_not_judged),
    ("the set of a check message is not judged", set_of_a_check_not_judged),
    ("a check message is heard", check_message_heard),
    ("a check message raises the span", check_message_raises_the_span),
    ("a check message of another round is dropped", check_message_of_another_round_dropped),
    ("an acknowledgment of another round is not received", acknowledgment_of_another_round_not_received),
    ("an earlier acknowledgment counts in the site's round", heard_under_the_round_of_the_site),
    ("an acknowledgment replaces an earlier one", heard_replaced),
    ("the span is not raised", span_not_raised),
    ("of the new rows only that of the round is cleared", only_the_row_of_the_round_cleared),
    ("of the new rows only the sender's set is cleared", only_the_set_of_the_sender_cleared),
    ("a row within the span is cleared", row_cleared_within_the_span),
    ("a message is changed", message_changed),
];

const ACKNOWLEDGMENT: u8 = 1;
const CHECK: u8 = 2;

/// The bytes of the message of a call that brings one, where they are as many as they must be.
fn brought(call: &Call, lent: &Lent) -> Option<[u8; 10]> {
    matches!(call, Call::Receive { .. }).then(|| lent.message.lent().try_into().ok())?
}

/// Sender and round of a message of this kind that is taken.
fn taken(kind: u8, call: &Call, lent: &Lent) -> Option<(usize, usize)> {
    let (Call::Receive { sender }, Some(message)) = (call, brought(call, lent)) else { return None };
    (message[0] == kind && tried(call, lent) == 0).then_some((*sender, usize::from(message[1])))
}

/// The site's own round.
fn own_round(lent: &Lent) -> usize {
    lent.site.lent().first().map_or(0, |round| usize::from(*round))
}

/// The call with another message, which is put back afterwards.
fn with_message(call: &Call, lent: &mut Lent, message: &[u8]) -> u32 {
    let kept = std::mem::replace(&mut lent.message, Buffer::new(message, 0));
    let answer = right(call, lent);
    lent.message = kept;
    answer
}

/// The call with another byte in its message, where the message has a byte of this value there.
fn with_byte(call: &Call, lent: &mut Lent, at: usize, from: u8, to: u8) -> u32 {
    match brought(call, lent) {
        Some(mut message) if message[at] == from => {
            message[at] = to;
            with_message(call, lent, &message)
        }
        _ => right(call, lent),
    }
}

fn longer_message_taken(call: &Call, lent: &mut Lent) -> u32 {
    match (call, lent.message.lent().first_chunk::<10>().copied()) {
        (Call::Receive { .. }, Some(message)) => with_message(call, lent, &message),
        _ => right(call, lent),
    }
}

fn cut_message_filled_up(call: &Call, lent: &mut Lent) -> u32 {
    if matches!(call, Call::Receive { .. }) && lent.message.length() == 9 {
        let message = [lent.message.lent(), &[0]].concat();
        return with_message(call, lent, &message);
    }
    right(call, lent)
}

fn kind_0_taken(call: &Call, lent: &mut Lent) -> u32 {
    with_byte(call, lent, 0, 0, ACKNOWLEDGMENT)
}

fn kind_3_taken(call: &Call, lent: &mut Lent) -> u32 {
    with_byte(call, lent, 0, 3, CHECK)
}

fn high_bits_of_the_kind_lost(call: &Call, lent: &mut Lent) -> u32 {
    match brought(call, lent) {
        Some(message) if message[0] > 3 => with_byte(call, lent, 0, message[0], message[0] & 3),
        _ => right(call, lent),
    }
}

fn round_0_taken(call: &Call, lent: &mut Lent) -> u32 {
    match brought(call, lent) {
        Some([ACKNOWLEDGMENT, ..]) => with_byte(call, lent, 1, 0, 1),
        _ => right(call, lent),
    }
}

fn round_34_taken(call: &Call, lent: &mut Lent) -> u32 {
    match brought(call, lent) {
        Some([ACKNOWLEDGMENT, ..]) => with_byte(call, lent, 1, 34, 33),
        _ => right(call, lent),
    }
}

fn round_of_a_check_not_judged(call: &Call, lent: &mut Lent) -> u32 {
    match brought(call, lent) {
        Some([CHECK, round, ..]) => with_byte(call, lent, 1, round, 1),
        _ => right(call, lent),
    }
}

fn sender_of_a_check_not_judged(call: &Call, lent: &mut Lent) -> u32 {
    match brought(call, lent) {
        Some([CHECK, ..]) => right(&Call::Receive { sender: 0 }, lent),
        _ => right(call, lent),
    }
}

fn set_of_a_check_not_judged(call: &Call, lent: &mut Lent) -> u32 {
    match brought(call, lent) {
        Some([CHECK, round, ..]) if tried(call, lent) == 4 => {
            with_message(call, lent, &[CHECK, round, 0, 0, 0, 0, 0, 0, 0, 0])
        }
        _ => right(call, lent),
    }
}

fn check_message_heard(call: &Call, lent: &mut Lent) -> u32 {
    with_byte(call, lent, 0, CHECK, ACKNOWLEDGMENT)
}

fn check_message_raises_the_span(call: &Call, lent: &mut Lent) -> u32 {
    if let Some((_, round)) = taken(CHECK, call, lent).filter(|(_, round)| *round > span(lent)) {
        let answer = right(call, lent);
        lent.site.lent_mut()[6] = round as u8;
        return answer;
    }
    right(call, lent)
}

fn check_message_of_another_round_dropped(call: &Call, lent: &mut Lent) -> u32 {
    match taken(CHECK, call, lent) {
        Some((_, round)) if round != own_round(lent) => 0,
        _ => right(call, lent),
    }
}

fn acknowledgment_of_another_round_not_received(call: &Call, lent: &mut Lent) -> u32 {
    match (taken(ACKNOWLEDGMENT, call, lent), lent.site.lent().get(8..16).map(<[u8]>::to_vec)) {
        (Some((_, round)), Some(received)) if round != own_round(lent) => {
            let answer = right(call, lent);
            lent.site.lent_mut()[8..16].copy_from_slice(&received);
            answer
        }
        _ => right(call, lent),
    }
}

fn heard_under_the_round_of_the_site(call: &Call, lent: &mut Lent) -> u32 {
    let own = own_round(lent);
    match taken(ACKNOWLEDGMENT, call, lent) {
        Some((_, round)) if round < own => with_byte(call, lent, 1, round as u8, own as u8),
        _ => right(call, lent),
    }
}

fn heard_replaced(call: &Call, lent: &mut Lent) -> u32 {
    let acknowledgment = taken(ACKNOWLEDGMENT, call, lent);
    let answer = right(call, lent);
    if let Some((sender, round)) = acknowledgment {
        let at = row(round).start + 8 * sender;
        lent.site.lent_mut()[at..at + 8].copy_from_slice(&lent.message.lent()[2..10]);
    }
    answer
}

fn span_not_raised(call: &Call, lent: &mut Lent) -> u32 {
    let (earlier, acknowledgment) = (span(lent) as u16, taken(ACKNOWLEDGMENT, call, lent));
    let answer = right(call, lent);
    if acknowledgment.is_some() {
        lent.site.lent_mut()[6..8].copy_from_slice(&earlier.to_le_bytes());
    }
    answer
}

fn only_the_row_of_the_round_cleared(call: &Call, lent: &mut Lent) -> u32 {
    let (before, acknowledgment) = (lent.clone(), taken(ACKNOWLEDGMENT, call, lent));
    let answer = right(call, lent);
    if let Some((_, round)) = acknowledgment {
        for between in (span(&before) + 1..round).map(row) {
            lent.site.lent_mut()[between.clone()].copy_from_slice(&before.site.lent()[between]);
        }
    }
    answer
}

fn only_the_set_of_the_sender_cleared(call: &Call, lent: &mut Lent) -> u32 {
    let (before, acknowledgment) = (lent.clone(), taken(ACKNOWLEDGMENT, call, lent));
    let answer = right(call, lent);
    if let Some((sender, round)) = acknowledgment.filter(|(_, round)| *round > span(&before)) {
        let own = row(round).start + 8 * sender;
        let others = row(round).filter(|at| !(own..own + 8).contains(at));
        others.for_each(|at| lent.site.lent_mut()[at] = before.site.lent()[at]);
    }
    answer
}

fn row_cleared_within_the_span(call: &Call, lent: &mut Lent) -> u32 {
    if let Some((_, round)) = taken(ACKNOWLEDGMENT, call, lent).filter(|(_, round)| *round <= span(lent)) {
        lent.site.lent_mut()[row(round)].fill(0);
    }
    right(call, lent)
}

fn message_changed(call: &Call, lent: &mut Lent) -> u32 {
    let answer = right(call, lent);
    if matches!(call, Call::Receive { .. }) && answer == 0 {
        lent.message.lent_mut()[0] = 0;
    }
    answer
}
