//! The one-site engine of the static archive, called through the functions of include/dash_register.h.

use crate::lent_calls::{Buffer, Call, Engine, Lent};

mod header {
    unsafe extern "C" {
        pub fn dash_register_judge_table(table: *const u8, table_length: usize) -> u32;
        pub fn dash_register_judge_book(book: *const u8, book_length: usize) -> u32;
        pub fn dash_register_fresh(site: *mut u8, site_length: usize) -> u32;
        pub fn dash_register_receive_command(
            table: *const u8,
            table_length: usize,
            book: *const u8,
            book_length: usize,
            site: *mut u8,
            site_length: usize,
            command: usize,
        ) -> u32;
        pub fn dash_register_receive(
            table: *const u8,
            table_length: usize,
            book: *const u8,
            book_length: usize,
            site: *mut u8,
            site_length: usize,
            sender: usize,
            message: *const u8,
            message_length: usize,
        ) -> u32;
        pub fn dash_register_turn(
            table: *const u8,
            table_length: usize,
            book: *const u8,
            book_length: usize,
            site: *mut u8,
            site_length: usize,
            log: *const u8,
            log_length: usize,
            own: usize,
            message: *mut u8,
            message_length: usize,
            entry: *mut u8,
            entry_length: usize,
        ) -> u32;
        pub fn dash_register_fast_delivery(
            table: *const u8,
            table_length: usize,
            book: *const u8,
            book_length: usize,
            site: *mut u8,
            site_length: usize,
            command: usize,
        ) -> u32;
        pub fn dash_register_log_read(
            table: *const u8,
            table_length: usize,
            book: *const u8,
            book_length: usize,
            site: *mut u8,
            site_length: usize,
            log: *const u8,
            log_length: usize,
        ) -> u32;
        pub fn dash_register_round_end(
            table: *const u8,
            table_length: usize,
            book: *const u8,
            book_length: usize,
            site: *mut u8,
            site_length: usize,
            log: *const u8,
            log_length: usize,
        ) -> u32;
        pub fn dash_register_status(
            table: *const u8,
            table_length: usize,
            book: *const u8,
            book_length: usize,
            site: *const u8,
            site_length: usize,
            status: *mut u8,
            status_length: usize,
        ) -> u32;
        pub fn dash_register_bike(
            table: *const u8,
            table_length: usize,
            book: *const u8,
            book_length: usize,
            site: *const u8,
            site_length: usize,
            bike: usize,
            out: *mut u8,
            out_length: usize,
        ) -> u32;
        pub fn dash_register_delivery(
            table: *const u8,
            table_length: usize,
            book: *const u8,
            book_length: usize,
            site: *const u8,
            site_length: usize,
            k: usize,
            out: *mut u8,
            out_length: usize,
        ) -> u32;
    }
}

/// The archive's engine. All lent memory stays the caller's, so it has no state.
pub struct Archive;

/// A buffer as C sees it. The pointer allows writing, so that a write into what is lent for reading is seen afterwards
/// and not undefined.
struct Bytes {
    at: *mut u8,
    length: usize,
}

fn lend(buffer: &mut Buffer) -> Bytes {
    Bytes { at: buffer.pointer(), length: buffer.length() }
}

// SAFETY of all calls below: each pointer comes with the length of its own live buffer, or is null with length 0,
// no two buffers overlap, and the functions keep none of them.

/// Calls a function that is lent table, book and site first, and then takes these arguments.
macro_rules! on_site {
    ($lent:expr, $function:ident $(, $argument:expr)*) => {{
        let [table, book, site] = [&mut $lent.table, &mut $lent.book, &mut $lent.site].map(lend);
        unsafe { header::$function(table.at, table.length, book.at, book.length, site.at, site.length $(, $argument)*) }
    }};
}

/// The calls that are lent a table, a book or a site alone.
fn judge_or_start(call: &Call, lent: &mut Lent) -> u32 {
    let [table, book, site] = [&mut lent.table, &mut lent.book, &mut lent.site].map(lend);
    match call {
        Call::JudgeTable => unsafe { header::dash_register_judge_table(table.at, table.length) },
        Call::JudgeBook => unsafe { header::dash_register_judge_book(book.at, book.length) },
        Call::Fresh => unsafe { header::dash_register_fresh(site.at, site.length) },
        _ => unreachable!("{call:?} is lent all three"),
    }
}

fn receive(sender: usize, lent: &mut Lent) -> u32 {
    let message = lend(&mut lent.message);
    on_site!(lent, dash_register_receive, sender, message.at, message.length)
}

fn turn(own: usize, lent: &mut Lent) -> u32 {
    let [log, message, entry] = [&mut lent.log, &mut lent.message, &mut lent.entry].map(lend);
    on_site!(lent, dash_register_turn, log.at, log.length, own, message.at, message.length, entry.at, entry.length)
}

fn go_by_log(call: &Call, lent: &mut Lent) -> u32 {
    let log = lend(&mut lent.log);
    match call {
        Call::LogRead => on_site!(lent, dash_register_log_read, log.at, log.length),
        Call::RoundEnd => on_site!(lent, dash_register_round_end, log.at, log.length),
        _ => unreachable!("{call:?} is no step that goes by the log alone"),
    }
}

fn look(call: &Call, lent: &mut Lent) -> u32 {
    let out = lend(&mut lent.out);
    match *call {
        Call::Status => on_site!(lent, dash_register_status, out.at, out.length),
        Call::Bike { bike } => on_site!(lent, dash_register_bike, bike, out.at, out.length),
        Call::Delivery { place } => on_site!(lent, dash_register_delivery, place, out.at, out.length),
        _ => unreachable!("{call:?} changes what is lent"),
    }
}

impl Engine for Archive {
    fn call(&mut self, call: &Call, lent: &mut Lent) -> u32 {
        match *call {
            Call::JudgeTable | Call::JudgeBook | Call::Fresh => judge_or_start(call, lent),
            Call::ReceiveCommand { command } => on_site!(lent, dash_register_receive_command, command),
            Call::Receive { sender } => receive(sender, lent),
            Call::Turn { own } => turn(own, lent),
            Call::FastDelivery { command } => on_site!(lent, dash_register_fast_delivery, command),
            Call::LogRead | Call::RoundEnd => go_by_log(call, lent),
            Call::Status | Call::Bike { .. } | Call::Delivery { .. } => look(call, lent),
        }
    }
}
