//! A whole run: header, book and steps (document 01, "A run and its print").

use crate::print;
use crate::refusal::{self, Refusal};
use crate::site::Rules;
use crate::step::{read_step, Step};
use crate::{Book, SiteTable, World};

/// A run has at most this many bytes.
pub const MOST_BYTES: usize = 60_000;
/// The book starts after n, f, mask and book length.
pub const HEADER_BYTES: usize = 6;

/// A run whose header and book were taken, after all its steps.
#[derive(Clone, Debug)]
pub struct Played {
    /// The steps that were read, and what each came to.
    pub steps: Vec<Step>,
    pub verdicts: Vec<Result<(), Refusal>>,
    /// Whether a step with an unknown code or cut operands ended the reading.
    pub is_cut: bool,
    pub world: World,
}

/// The start of the world that a header and book describe, and the bytes of the steps.
fn read_opening(input: &[u8]) -> Result<(World, &[u8]), Refusal> {
    if input.len() > MOST_BYTES {
        return Err(refusal::ROOM);
    }
    let (header, rest) = input.split_first_chunk::<HEADER_BYTES>().ok_or(refusal::HEADER)?;
    let (table, faulty) = SiteTable::read_marked(header)?;
    let [.., length_low, length_high] = *header;
    let book_length = usize::from(u16::from_le_bytes([length_low, length_high]));
    if book_length > rest.len() {
        return Err(refusal::HEADER);
    }
    let (book, steps) = rest.split_at(book_length);
    let rules = Rules { table, book: Book::read(book)? };
    Ok((World::start(rules, faulty), steps))
}

/// Plays a run; the number alone where its size, header or book is refused.
pub fn play_run(input: &[u8]) -> Result<Played, Refusal> {
    let (mut world, mut rest) = read_opening(input)?;
    let (mut steps, mut verdicts) = (Vec::new(), Vec::new());
    let mut is_cut = false;
    while !rest.is_empty() && !is_cut {
        match read_step(rest) {
            Ok((step, after)) => {
                verdicts.push(world.step(&step));
                steps.push(step);
                rest = after;
            }
            Err(_) => is_cut = true,
        }
    }
    Ok(Played { steps, verdicts, is_cut, world })
}

/// Plays a run's bytes to the printed bytes.
pub fn play(input: &[u8]) -> Vec<u8> {
    match play_run(input) {
        Ok(played) => print::print(&played),
        Err(number) => print::print_refused(number),
    }
}
