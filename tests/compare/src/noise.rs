//! Single steps with operands in and around their ranges, whether they make sense or not.

use crate::draw::Draw;
use reference::{Set, Step, World};

fn site(draw: &mut Draw, world: &World) -> usize {
    let edge = draw.pick(&[world.sites.len(), 11, 255]);
    if draw.percent(4) {
        edge
    } else {
        draw.below(world.sites.len())
    }
}

fn command(draw: &mut Draw, world: &World) -> usize {
    let count = world.rules.book.count();
    if draw.percent(5) {
        draw.pick(&[count, 64, 255])
    } else {
        draw.below(count)
    }
}

/// A round near those the sites are in, or at the ends of its range.
fn round(draw: &mut Draw, world: &World) -> usize {
    let highest = world.sites.iter().map(|site| site.round).max().unwrap_or(1);
    let edge = draw.pick(&[0, 31, 32, 33, 34, 255]);
    if draw.percent(10) {
        edge
    } else {
        draw.within(1, highest + 1)
    }
}

/// Any set of the book's commands, now and then with one beyond it.
pub fn set(draw: &mut Draw, world: &World) -> Set {
    let count = world.rules.book.count();
    let density = draw.pick(&[0, 10, 30, 60, 100]);
    let mut set: Set = (0..count).filter(|_| draw.percent(density)).collect();
    if count < 64 && draw.percent(4) {
        set.insert(draw.within(count, 63));
    }
    set
}

/// A step of any code.
pub fn step(draw: &mut Draw, world: &World) -> Step {
    let (to, from) = (site(draw, world), site(draw, world));
    let (round, command) = (round(draw, world), command(draw, world));
    match draw.below(10) {
        0 => Step::Command { to, command },
        1 => {
            let a = draw.pick(&[0, 1, 1, 1, 1, 2, 2, 3, 63, 64, 65, 255]);
            Step::Acknowledgment { to, from, round, a }
        }
        2 => Step::Check { to, from, round },
        3 => Step::FaultyAcknowledgment { to, from: faulty(draw, world, from), round, set: set(draw, world) },
        4 => Step::FaultyCheck { to, from: faulty(draw, world, from), round, set: set(draw, world) },
        5 => {
            let (nc, c) = (set(draw, world), set(draw, world));
            Step::FaultyEntry { from: faulty(draw, world, from), round, nc, c }
        }
        6 => Step::Turn { site: to },
        7 => Step::FastDelivery { site: to, command },
        8 => Step::LogRead { site: to },
        _ => Step::RoundEnd { site: to },
    }
}

/// A faulty site where there is one, mostly.
fn faulty(draw: &mut Draw, world: &World, otherwise: usize) -> usize {
    let faulty: Vec<usize> = world.faulty.iter().copied().collect();
    if faulty.is_empty() || draw.percent(10) {
        otherwise
    } else {
        draw.pick(&faulty)
    }
}
