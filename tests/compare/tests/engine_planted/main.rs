//! Faults planted into the stand-in: the random calls must tell each of them.

mod logs;
mod messages;
mod order;
mod outputs;
mod sites;

use compare::lent_calls::{Buffer, Call, Engine, Lent};
use compare::lent_check::Met;
use compare::lent_scenes::play;
use compare::settings::say;
use compare::stand_in::StandIn;
use reference::Book;

/// A call with something wrong about it.
type Fault = fn(&Call, &mut Lent) -> u32;

struct Planted {
    fault: Fault,
}

impl Engine for Planted {
    fn call(&mut self, call: &Call, lent: &mut Lent) -> u32 {
        (self.fault)(call, lent)
    }
}

fn right(call: &Call, lent: &mut Lent) -> u32 {
    StandIn.call(call, lent)
}

/// The answer that the call would get, with nothing changed.
fn tried(call: &Call, lent: &Lent) -> u32 {
    right(call, &mut lent.clone())
}

/// Whether the lent site is refused when it is looked at with the same table and book, whatever else is lent.
fn is_site_refused(lent: &Lent) -> bool {
    tried(&Call::Status, &Lent { out: Buffer::new(&[0; 8], 0), ..lent.clone() }) == 4
}

/// How many commands the lent book has.
fn commands(lent: &Lent) -> usize {
    Book::read(lent.book.lent()).map_or(0, |book| book.count())
}

/// The number of sites in the lent table; 0 where it is cut.
fn sites(lent: &Lent) -> usize {
    lent.table.lent().first().map_or(0, |sites| usize::from(*sites))
}

/// The number in two of the lent bytes; 0 where they are too short.
fn number(lent: &Lent, at: usize) -> usize {
    lent.site.lent().get(at..at + 2).map_or(0, |bytes| usize::from(bytes[0]) + 256 * usize::from(bytes[1]))
}

fn position(lent: &Lent) -> usize {
    number(lent, 2)
}

fn span(lent: &Lent) -> usize {
    number(lent, 6)
}

/// The bytes of a round's sets heard.
fn row(round: usize) -> std::ops::Range<usize> {
    632 + 88 * (round - 1)..632 + 88 * round
}

#[test]
fn each_fault_is_told() {
    let all = [order::FAULTS, outputs::FAULTS, sites::FAULTS, messages::FAULTS, logs::FAULTS];
    for (name, fault) in all.into_iter().flatten() {
        let told = play(&mut Planted { fault: *fault }, 100_000, 1, &mut Met::default());
        let Err(difference) = told else { panic!("never told: {name}") };
        let place = difference.split(": ").next().unwrap_or_default();
        say(&format!("{name}: told by {place}"));
    }
}
