//! What is judged of a lent site.

use crate::{right, sites, span, tried, Fault};
use compare::lent_calls::{Call, Lent};

pub const FAULTS: &[(&str, Fault)] = &[
    ("the last sender is not judged", last_sender_not_judged),
    ("the last delivery is not judged", last_delivery_not_judged),
    ("the number of deliveries loses its high byte", high_byte_of_the_count_not_judged),
    ("the span loses its high byte", high_byte_of_the_span_not_judged),
    ("a span of 34 is taken", span_34_taken),
    ("bytes past the span are judged", bytes_past_the_span_judged),
    ("sets past the span are heard", sets_past_the_span_heard),
    ("proposed sets while acknowledging are not judged", proposed_sets_not_judged),
];

/// The call on a site with other bytes in a part of it, which is put back afterwards.
fn with_part(at: usize, part: &[u8], call: &Call, lent: &mut Lent) -> u32 {
    let Some(kept) = lent.site.lent().get(at..at + part.len()).map(<[u8]>::to_vec) else {
        return right(call, lent);
    };
    let before = lent.site.clone();
    lent.site.lent_mut()[at..at + part.len()].copy_from_slice(part);
    let answer = right(call, lent);
    if answer != 0 {
        lent.site = before;
    } else {
        lent.site.lent_mut()[at..at + part.len()].copy_from_slice(&kept);
    }
    answer
}

fn last_sender_not_judged(call: &Call, lent: &mut Lent) -> u32 {
    let span = span(lent);
    if sites(lent) < 11 && *call == Call::LogRead && (1..=33).contains(&span) && lent.site.length() >= 3536 {
        let mut rows = lent.site.lent()[632..632 + 88 * span].to_vec();
        rows.chunks_mut(88).for_each(|row| row[80..].fill(0));
        return with_part(632, &rows, call, lent);
    }
    right(call, lent)
}

fn last_delivery_not_judged(call: &Call, lent: &mut Lent) -> u32 {
    if *call == Call::RoundEnd && lent.site.lent().get(4).is_some_and(|recorded| *recorded < 60) {
        return with_part(627, &[0; 5], call, lent);
    }
    right(call, lent)
}

fn high_byte_of_the_count_not_judged(call: &Call, lent: &mut Lent) -> u32 {
    if *call == Call::Status {
        return with_part(5, &[0], call, lent);
    }
    right(call, lent)
}

fn high_byte_of_the_span_not_judged(call: &Call, lent: &mut Lent) -> u32 {
    if *call == Call::Status {
        return with_part(7, &[0], call, lent);
    }
    right(call, lent)
}

fn span_34_taken(call: &Call, lent: &mut Lent) -> u32 {
    if *call == Call::Status && span(lent) == 34 {
        return with_part(6, &[33, 0], call, lent);
    }
    right(call, lent)
}

fn bytes_past_the_span_judged(call: &Call, lent: &mut Lent) -> u32 {
    if *call == Call::Status && tried(call, lent) == 0 {
        return with_part(6, &[33, 0], call, lent);
    }
    right(call, lent)
}

fn sets_past_the_span_heard(call: &Call, lent: &mut Lent) -> u32 {
    let is_refused = matches!(call, Call::FastDelivery { .. }) && tried(call, lent) == 6;
    if is_refused && with_part(6, &[33, 0], call, lent) == 0 {
        return 0;
    }
    right(call, lent)
}

fn proposed_sets_not_judged(call: &Call, lent: &mut Lent) -> u32 {
    if *call == Call::Status && lent.site.lent().get(1) == Some(&0) {
        return with_part(40, &[0; 16], call, lent);
    }
    right(call, lent)
}
