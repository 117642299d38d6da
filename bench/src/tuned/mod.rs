//! The run program as it would be written for speed alone.
//!
//! Sets are words, tables are fixed arrays, and nothing is allocated while a run is played. It prints what the
//! reference prints; document 01 rules both. What it knows beyond document 01's text, and uses:
//!
//! - In a run an entry is judged before it is appended, so a log read never meets one to refuse.
//! - All sites read one log, so a round is decided once, when its deciding entry is appended. A site only asks
//!   whether it has read that far.
//! - A site's pending set is free of conflicts and within what it received, so a turn tests new commands only.

mod book;
mod log;
mod print;
mod site;
mod steps;

use book::Book;
use print::Printer;
use steps::World;

pub use print::OUT_BYTES;

/// A run has at most this many bytes.
const MOST_BYTES: usize = 60_000;
/// Sites, faults, mask and book length.
const HEADER_BYTES: usize = 6;
/// At most this many sites.
const SITES: usize = 11;
/// One place for each round 1 to 33, and an unused one for 0.
const ROUNDS: usize = 34;
/// At most this many commands in a book.
const COMMANDS: usize = 64;

/// A refusal's number; 0 where there is none.
type Refusal = u32;
const TAKEN: Refusal = 0;
const BOOK: Refusal = 1;
const HEADER: Refusal = 2;
const FORM: Refusal = 3;
const RANGE: Refusal = 4;
const ROLE: Refusal = 5;
const NOT_ENABLED: Refusal = 6;
const THIRD_ENTRY: Refusal = 7;
const LAST_ROUND: Refusal = 8;
const ROOM: Refusal = 9;

/// The set at this place of some bytes, which must be long enough.
#[inline(always)]
fn word(bytes: &[u8], at: usize) -> u64 {
    u64::from_le_bytes(*bytes[at..].first_chunk().expect("the bytes have a set at this place"))
}

/// All the room a run needs, used again for the next run and not cleared between them.
pub struct Work {
    world: World,
}

impl Work {
    pub fn new() -> Box<Work> {
        Box::new(Work { world: World::new() })
    }
}

/// Plays a run's bytes and gives the length of its print, which stands at the front of `out`.
///
/// `out` has at least `OUT_BYTES` bytes.
#[inline(never)]
pub fn play(run: &[u8], work: &mut Work, out: &mut [u8]) -> usize {
    let mut printer = Printer::new(out);
    match open(run, &mut work.world) {
        Ok(steps) => {
            work.world.print_opening(&mut printer);
            work.world.play(steps, &mut printer);
            work.world.print_sites(&mut printer);
        }
        Err(number) => printer.refused(number),
    }
    printer.length()
}

/// Reads header and book, starts the world with them, and gives the bytes of the steps.
fn open<'a>(run: &'a [u8], world: &mut World) -> Result<&'a [u8], Refusal> {
    if run.len() > MOST_BYTES {
        return Err(ROOM);
    }
    let (&[sites, faults, low, high, length_low, length_high], rest) =
        run.split_first_chunk::<HEADER_BYTES>().ok_or(HEADER)?;
    let mask = u16::from_le_bytes([low, high]);
    let length = usize::from(u16::from_le_bytes([length_low, length_high]));
    let is_table = (1..=SITES as u8).contains(&sites) && faults <= 2 && sites > 5 * faults;
    if !is_table || mask >> sites != 0 || mask.count_ones() > u32::from(faults) {
        return Err(HEADER);
    }
    let (book, steps) = rest.split_at_checked(length).ok_or(HEADER)?;
    Book::read(&mut world.book, book)?;
    world.start(sites, faults, mask);
    Ok(steps)
}
