//! Random whole runs of every shape, each from a seed and its place.

use crate::books::{self, Opening, Style};
use crate::damage;
use crate::draw::Draw;
use crate::driver::{Driver, Manner};
use crate::noise;
use reference::MOST_BYTES;

/// The run at this place under this seed.
pub fn run(seed: u64, place: u64) -> Vec<u8> {
    let mut draw = Draw::new(seed, place);
    match draw.below(1000) {
        0..=399 => short(&mut draw),
        400..=499 => lagging(&mut draw),
        500..=649 => noisy(&mut draw),
        650..=769 => medium(&mut draw),
        770..=799 => deep(&mut draw),
        800..=959 => damaged(&mut draw),
        960..=984 => garbage(&mut draw),
        _ => sized(&mut draw),
    }
}

/// A few rounds at most, messages and faulty sites in any manner.
pub fn short(draw: &mut Draw) -> Vec<u8> {
    let opening = books::opening(draw);
    let manner = Manner::any(draw);
    let (beats, most_bytes) = (draw.within(1, 5), draw.pick(&[300, 1000, 2500]));
    let is_shuffled = draw.percent(50);
    feed_and_beat(draw, &opening, &manner, beats, most_bytes, is_shuffled)
}

/// Sites that end rounds at different times, with messages that come once, so that some come a round early.
pub fn lagging(draw: &mut Draw) -> Vec<u8> {
    let sites = draw.pick(&[2, 3, 4, 6, 6, 6, 7, 11]);
    let (sites, faults, mask) = books::table_of(draw, sites);
    let style = draw.pick(&[Style::Full, Style::Mixed, Style::Mixed]);
    let count = draw.within(4, 16);
    let opening = Opening { sites, faults, mask, book: books::book(draw, style, count) };
    let (reads, ends) = (draw.pick(&[70, 90, 100]), draw.pick(&[30, 60]));
    let faulty = draw.pick(&[30, 60, 90]);
    let manner = Manner { reads, ends, faulty, is_once: true, is_wild: draw.percent(20), ..Manner::prompt() };
    let (beats, is_shuffled) = (draw.within(3, 9), draw.percent(50));
    feed_and_beat(draw, &opening, &manner, beats, 4000, is_shuffled)
}

/// Ten rounds and more: a longer book, fed a few commands at a time, most of what is sent arrives.
pub fn medium(draw: &mut Draw) -> Vec<u8> {
    let sites = draw.pick(&[1, 2, 3, 4, 6, 6, 6, 7, 8, 11]);
    let (sites, faults, mask) = books::table_of(draw, sites);
    let style = draw.pick(&[Style::Full, Style::Full, Style::Mixed]);
    let count = draw.within(24, 64);
    let opening = Opening { sites, faults, mask, book: books::book(draw, style, count) };
    let manner = Manner { acknowledgments: draw.pick(&[20, 60, 100]), ..Manner::prompt() };
    let noise = draw.pick(&[0, 0, 2, 20]);
    let (checks, faulty) = (draw.pick(&[60, 100]), draw.pick(&[30, 60, 90]));
    let manner = Manner { noise, checks, faulty, is_wild: draw.percent(10), is_once: draw.percent(30), ..manner };
    let beats = draw.within(10, 20);
    feed_and_beat(draw, &opening, &manner, beats, 30_000, false)
}

/// Feeds one to three commands before each beat, to all sites or to some.
fn feed_and_beat(
    draw: &mut Draw,
    opening: &Opening,
    manner: &Manner,
    beats: usize,
    most_bytes: usize,
    is_shuffled: bool,
) -> Vec<u8> {
    let spread = draw.pick(&[0, 50, 90, 100]);
    let mut driver = Driver::new(draw, opening, most_bytes);
    for _ in 0..beats {
        for _ in 0..driver.draw.within(1, 3) {
            let unknown = driver.unknown();
            if !unknown.is_empty() {
                let command = driver.draw.pick(&unknown);
                driver.feed(command, spread);
            }
            if driver.draw.percent(30) {
                driver.turns(manner);
            }
        }
        driver.beat(manner, is_shuffled);
    }
    driver.bytes
}

/// Two commands a round from a book of 64 that all conflict: round 33 is reached.
pub fn deep(draw: &mut Draw) -> Vec<u8> {
    let sites = draw.pick(&[1, 1, 2, 3, 6, 6, 6, 7, 11]);
    let (sites, faults, mask) = books::table_of(draw, sites);
    let opening = Opening { sites, faults, mask, book: books::book(draw, Style::Full, 64) };
    let manner = Manner { faulty: draw.pick(&[0, 30, 60]), ..Manner::prompt() };
    let mut order: Vec<usize> = (0..64).collect();
    draw.shuffle(&mut order);
    let is_fast = draw.percent(50);
    let mut driver = Driver::new(draw, &opening, MOST_BYTES);
    for pair in order.chunks(2) {
        deep_round(&mut driver, &manner, pair, is_fast);
    }
    driver.bytes
}

/// One round of a deep run; the first command is acknowledged, and at times delivered fast, before the second comes.
fn deep_round(driver: &mut Driver, manner: &Manner, pair: &[usize], is_fast: bool) {
    for command in pair {
        driver.feed(*command, 100);
        if driver.draw.percent(60) {
            driver.turns(manner);
        }
        if is_fast && driver.draw.percent(20) {
            driver.spread_acknowledgments(manner);
            driver.fast_deliveries(manner);
        }
    }
    let quiet = Manner { acknowledgments: 0, checks: 0, ..*manner };
    driver.beat(&quiet, false);
    // A second reading brings entries that came after the first.
    driver.reads(manner);
    driver.ends(manner);
}

/// Steps without any plan.
pub fn noisy(draw: &mut Draw) -> Vec<u8> {
    let opening = books::opening(draw);
    let steps = draw.pick(&[0, 5, 30, 100, 200]);
    let mut driver = Driver::new(draw, &opening, 3000);
    for _ in 0..steps {
        let step = noise::step(driver.draw, &driver.world);
        driver.take(step);
    }
    driver.bytes
}

/// A short or noisy run with damage in header, book or steps.
pub fn damaged(draw: &mut Draw) -> Vec<u8> {
    let mut run = if draw.percent(50) { short(draw) } else { noisy(draw) };
    for _ in 0..draw.pick(&[1, 1, 1, 2, 4]) {
        damage::damage(draw, &mut run);
    }
    run
}

/// Bytes of any kind, or a header that is taken with bytes of any kind after it.
pub fn garbage(draw: &mut Draw) -> Vec<u8> {
    let length = draw.pick(&[0, 1, 5, 6, 7, 20, 60, 200]);
    let mut run = if draw.percent(60) { books::opening(draw).bytes() } else { Vec::new() };
    run.extend((0..draw.below(length + 1)).map(|_| draw.byte()).collect::<Vec<u8>>());
    run
}

/// A run whose length is at or near the most that is taken.
pub fn sized(draw: &mut Draw) -> Vec<u8> {
    let mut run = if draw.percent(80) { short(draw) } else { garbage(draw) };
    let length = MOST_BYTES - 3 + draw.below(6);
    let filler = draw.pick(&[&[0x07, 0x00][..], &[0x09, 0x00], &[0x0A, 0x01], &[0x01, 0x00, 0x00], &[0x00]]);
    // Most often a cut is at the front of the filling, so that its length matters and its steps do not.
    if draw.percent(70) {
        run.push(0xFF);
    }
    while run.len() < length {
        run.extend(filler);
    }
    run.truncate(length);
    run
}
