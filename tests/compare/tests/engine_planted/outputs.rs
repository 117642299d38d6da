//! What a call writes out, and what it must leave.

use crate::{right, tried, Fault};
use compare::lent_calls::{Buffer, Call, Lent};

pub const FAULTS: &[(&str, Fault)] = &[
    ("a refused call writes the output", refused_call_writes_the_output),
    ("a refused round end delivers in part", refused_round_end_delivers_in_part),
    ("an acknowledgment clears the entry", acknowledgment_clears_the_entry),
    ("an acknowledgment asks for no room for an entry", acknowledgment_asks_for_no_entry),
    ("a turn asks for nine bytes of a message", turn_asks_for_nine_bytes),
    ("a turn writes past the message", turn_writes_past_the_message),
    ("a turn writes past the entry", turn_writes_past_the_entry),
    ("a check message has what is new alone", check_message_has_what_is_new_alone),
    ("a message has the next round", message_has_the_next_round),
    ("a proposal has NC and C swapped", proposal_swapped),
    ("a fresh site is written past its size", writes_past_the_site),
    ("a fresh site clears the first sets of a row", fresh_site_clears_a_row),
    ("a guard byte is written", writes_a_guard),
    ("the status writes the site", status_writes_the_site),
    ("a delivery past the last is answered", delivery_past_the_last),
];

fn refused_call_writes_the_output(call: &Call, lent: &mut Lent) -> u32 {
    let answer = right(call, lent);
    let output = match call {
        Call::Turn { .. } => &mut lent.message,
        _ => &mut lent.out,
    };
    if let (1.., Some(byte)) = (answer, output.lent_mut().first_mut()) {
        *byte ^= 1;
    }
    answer
}

fn refused_round_end_delivers_in_part(call: &Call, lent: &mut Lent) -> u32 {
    let answer = right(call, lent);
    if *call == Call::RoundEnd && answer == 9 && lent.site.length() >= 3536 {
        lent.site.lent_mut()[56] ^= 1;
    }
    answer
}

/// The kind of the message that a turn has written.
fn sent(call: &Call, answer: u32, lent: &Lent) -> Option<u8> {
    (matches!(call, Call::Turn { .. }) && answer == 0).then(|| lent.message.lent()[0])
}

fn acknowledgment_clears_the_entry(call: &Call, lent: &mut Lent) -> u32 {
    let answer = right(call, lent);
    if sent(call, answer, lent) == Some(1) {
        lent.entry.lent_mut()[..18].fill(0);
    }
    answer
}

fn acknowledgment_asks_for_no_entry(call: &Call, lent: &mut Lent) -> u32 {
    let mut roomy = lent.clone();
    roomy.entry = Buffer::new(&[0; 18], 0);
    let answer = right(call, &mut roomy);
    if lent.entry.length() < 18 && sent(call, answer, &roomy) == Some(1) {
        return 0;
    }
    right(call, lent)
}

fn turn_asks_for_nine_bytes(call: &Call, lent: &mut Lent) -> u32 {
    let mut roomy = lent.clone();
    roomy.message = Buffer::new(&[0; 10], 0);
    if matches!(call, Call::Turn { .. }) && lent.message.length() == 9 {
        return right(call, &mut roomy);
    }
    right(call, lent)
}

fn turn_writes_past_the_message(call: &Call, lent: &mut Lent) -> u32 {
    let answer = right(call, lent);
    if let (Some(_), Some(byte)) = (sent(call, answer, lent), lent.message.lent_mut().get_mut(10)) {
        *byte = 0;
    }
    answer
}

fn turn_writes_past_the_entry(call: &Call, lent: &mut Lent) -> u32 {
    let answer = right(call, lent);
    if let (Some(2), Some(byte)) = (sent(call, answer, lent), lent.entry.lent_mut().get_mut(18)) {
        *byte = 0;
    }
    answer
}

fn check_message_has_what_is_new_alone(call: &Call, lent: &mut Lent) -> u32 {
    let answer = right(call, lent);
    if sent(call, answer, lent) == Some(2) {
        lent.message.lent_mut()[2..10].copy_from_slice(&lent.entry.lent()[10..18]);
    }
    answer
}

fn message_has_the_next_round(call: &Call, lent: &mut Lent) -> u32 {
    let answer = right(call, lent);
    if sent(call, answer, lent).is_some() {
        lent.message.lent_mut()[1] += 1;
    }
    answer
}

fn proposal_swapped(call: &Call, lent: &mut Lent) -> u32 {
    let answer = right(call, lent);
    if sent(call, answer, lent) == Some(2) {
        let (nc, c) = lent.entry.lent_mut()[2..18].split_at_mut(8);
        nc.swap_with_slice(c);
    }
    answer
}

fn writes_past_the_site(call: &Call, lent: &mut Lent) -> u32 {
    let answer = right(call, lent);
    if let (Call::Fresh, Some(byte)) = (call, lent.site.lent_mut().get_mut(3536)) {
        *byte = 0;
    }
    answer
}

fn fresh_site_clears_a_row(call: &Call, lent: &mut Lent) -> u32 {
    let answer = right(call, lent);
    if *call == Call::Fresh && answer == 0 {
        lent.site.lent_mut()[632..640].fill(0);
    }
    answer
}

fn writes_a_guard(call: &Call, lent: &mut Lent) -> u32 {
    if let (Call::Status, Some(guard)) = (call, lent.out.all_mut().last_mut()) {
        *guard ^= 1;
    }
    right(call, lent)
}

fn status_writes_the_site(call: &Call, lent: &mut Lent) -> u32 {
    let answer = right(call, lent);
    if *call == Call::Status && answer == 0 {
        lent.site.lent_mut()[1] = 0;
    }
    answer
}

fn delivery_past_the_last(call: &Call, lent: &mut Lent) -> u32 {
    let answer = right(call, lent);
    let recorded = lent.site.lent().get(4).map_or(0, |recorded| usize::from(*recorded));
    if *call == (Call::Delivery { place: recorded }) && answer == 4 && tried(&Call::Status, lent) == 0 {
        lent.out.lent_mut()[..5].fill(0);
        return 0;
    }
    answer
}
