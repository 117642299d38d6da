//! What is judged of a table, and which cause comes first.

use crate::{commands, is_site_refused, position, right, sites, tried, Fault};
use compare::lent_calls::{Buffer, Call, Lent};

pub const FAULTS: &[(&str, Fault)] = &[
    ("a longer table is refused", longer_table_refused),
    ("the mask of a longer table is judged", mask_of_a_longer_table_judged),
    ("a cut table is filled up", cut_table_filled_up),
    ("a mask that is cut is judged", cut_mask_judged),
    ("the mask loses its high byte", high_byte_of_the_mask_not_judged),
    ("the book is judged before the table", book_before_table),
    ("the table is judged before the size", table_before_size),
    ("the form of a message is judged before the book", message_before_book),
    ("the site is judged before the form of a message", site_before_message),
    ("the site is judged before a cut log", site_before_cut_log),
    ("a full record comes before not enabled", full_record_before_not_enabled),
    ("the log position is judged without a log", position_judged_without_log),
    ("the own number is judged last", own_number_judged_last),
    ("numbers lose their high half", narrow_numbers),
    ("a sender loses its high half", narrow_sender),
];

/// The call with another table, which is put back afterwards.
fn with_table(call: &Call, lent: &mut Lent, table: &[u8]) -> u32 {
    let kept = std::mem::replace(&mut lent.table, Buffer::new(table, 0));
    let answer = right(call, lent);
    lent.table = kept;
    answer
}

fn longer_table_refused(call: &Call, lent: &mut Lent) -> u32 {
    let is_longer = *call != Call::JudgeTable && lent.table.length() > 2;
    if is_longer && tried(call, lent) == 0 {
        return 2;
    }
    right(call, lent)
}

fn mask_of_a_longer_table_judged(call: &Call, lent: &mut Lent) -> u32 {
    if lent.table.length() >= 4 && tried(call, lent) == 0 && tried(&Call::JudgeTable, lent) == 2 {
        return 2;
    }
    right(call, lent)
}

fn cut_table_filled_up(call: &Call, lent: &mut Lent) -> u32 {
    match (call, lent.table.lent()) {
        (Call::LogRead, [sites]) => with_table(call, lent, &[*sites, 0]),
        _ => right(call, lent),
    }
}

fn cut_mask_judged(call: &Call, lent: &mut Lent) -> u32 {
    match (call, lent.table.lent()) {
        (Call::JudgeTable, [sites, faults, low]) => with_table(call, lent, &[*sites, *faults, *low, 0]),
        _ => right(call, lent),
    }
}

fn high_byte_of_the_mask_not_judged(call: &Call, lent: &mut Lent) -> u32 {
    match (call, lent.table.lent()) {
        (Call::JudgeTable, [sites, faults, low, _, ..]) => with_table(call, lent, &[*sites, *faults, *low, 0]),
        _ => right(call, lent),
    }
}

fn book_before_table(call: &Call, lent: &mut Lent) -> u32 {
    let answer = right(call, lent);
    if answer == 2 && *call != Call::JudgeTable && right(&Call::JudgeBook, lent) == 1 {
        return 1;
    }
    answer
}

fn table_before_size(call: &Call, lent: &mut Lent) -> u32 {
    let answer = right(call, lent);
    let is_size = answer == 9 && *call != Call::Fresh;
    if is_size && (lent.table.length() < 2 || sites(lent) > 11) {
        return 2;
    }
    answer
}

fn message_before_book(call: &Call, lent: &mut Lent) -> u32 {
    let answer = right(call, lent);
    if matches!(call, Call::Receive { .. }) && answer == 1 && lent.message.length() != 10 {
        return 3;
    }
    answer
}

fn site_before_message(call: &Call, lent: &mut Lent) -> u32 {
    let answer = right(call, lent);
    if matches!(call, Call::Receive { .. }) && answer == 3 && is_site_refused(lent) {
        return 4;
    }
    answer
}

fn site_before_cut_log(call: &Call, lent: &mut Lent) -> u32 {
    let answer = right(call, lent);
    if call.has_log() && answer == 3 && is_site_refused(lent) {
        return 4;
    }
    answer
}

fn full_record_before_not_enabled(call: &Call, lent: &mut Lent) -> u32 {
    let answer = right(call, lent);
    let is_delivery = matches!(call, Call::FastDelivery { .. } | Call::RoundEnd);
    if answer == 6 && is_delivery && usize::from(lent.site.lent()[4]) == commands(lent) {
        return 9;
    }
    answer
}

fn position_judged_without_log(call: &Call, lent: &mut Lent) -> u32 {
    if matches!(call, Call::ReceiveCommand { .. } | Call::Status) && position(lent) > 704 && tried(call, lent) == 0 {
        return 4;
    }
    right(call, lent)
}

fn own_number_judged_last(call: &Call, lent: &mut Lent) -> u32 {
    let answer = right(call, lent);
    if let Call::Turn { own } = call {
        let out_of_range = answer == 4 && *own >= sites(lent);
        if out_of_range && tried(&Call::Turn { own: 0 }, lent) == 6 {
            return 6;
        }
    }
    answer
}

fn narrow_numbers(call: &Call, lent: &mut Lent) -> u32 {
    match *call {
        Call::Bike { bike } => right(&Call::Bike { bike: bike & 0xFFFF_FFFF }, lent),
        _ => right(call, lent),
    }
}

fn narrow_sender(call: &Call, lent: &mut Lent) -> u32 {
    match *call {
        Call::Receive { sender } => right(&Call::Receive { sender: sender & 0xFFFF_FFFF }, lent),
        _ => right(call, lent),
    }
}
