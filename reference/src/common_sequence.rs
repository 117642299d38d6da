//! The common sequence of a played run (document 01, "The common sequence"), searched for and checked.
//!
//! What each correct site delivers is read off the steps, their refusals and the decided rounds. That fixes the
//! order of every two commands that conflict and were delivered: a site must have delivered, before a command,
//! all that conflict with it and stand before it. A sequence exists exactly when these orders have no cycle, and
//! commands without conflict exchange, so any sequence that fits them gives the same answers and registers.

use crate::log::decide;
use crate::refusal::Refusal;
use crate::site::{Delivery, Site};
use crate::step::Step;
use crate::{Register, Set, World};
use std::collections::{BTreeMap, BTreeSet};

/// What a correct site delivers, in order, and how many rounds it ended, read off the list of steps.
#[derive(Clone, Debug, Default)]
struct ReadOff {
    delivered: Vec<usize>,
    rounds_ended: usize,
    entries_read: usize,
}

/// The common sequence of a list of steps with these verdicts that left this world, or the first violation.
pub fn common_sequence(steps: &[Step], verdicts: &[Result<(), Refusal>], world: &World) -> Result<Vec<usize>, String> {
    if steps.len() != verdicts.len() {
        return Err(format!("{} steps have {} verdicts", steps.len(), verdicts.len()));
    }
    let mut lists = BTreeMap::new();
    for number in world.correct() {
        lists.insert(number, read_off(number, steps, verdicts, world)?);
    }
    for (number, list) in &lists {
        check_site_holds(*number, list, world)?;
    }
    let sequence = find_sequence(&lists, world)?;
    check_members(&sequence, &lists)?;
    for (number, list) in &lists {
        check_order(*number, list, &sequence, world)?;
        check_answers(*number, &sequence, world)?;
        check_register(*number, list, &sequence, world)?;
    }
    Ok(sequence)
}

/// What site i delivers: 08 i m that is not refused delivers m; the r-th such 0A i delivers what round r decides.
fn read_off(number: usize, steps: &[Step], verdicts: &[Result<(), Refusal>], world: &World) -> Result<ReadOff, String> {
    let mut list = ReadOff::default();
    for (step, _) in steps.iter().zip(verdicts).filter(|(_, verdict)| verdict.is_ok()) {
        match step {
            Step::FastDelivery { site, command } if *site == number => list.delivered.push(*command),
            Step::LogRead { site } if *site == number => list.entries_read += 1,
            Step::RoundEnd { site } if *site == number => end_round(number, &mut list, world)?,
            _ => {}
        }
    }
    Ok(list)
}

/// The next round's NCSet, then its CSet, each in number order, without what was delivered before.
fn end_round(number: usize, list: &mut ReadOff, world: &World) -> Result<(), String> {
    list.rounds_ended += 1;
    let round = list.rounds_ended;
    let decision = decide(round, &world.log, &world.rules)
        .ok_or(format!("site {number} ended round {round}, which the log does not decide"))?;
    let earlier: BTreeSet<usize> = list.delivered.iter().copied().collect();
    for command in decision.nc_set.iter().chain(&decision.c_set) {
        if !earlier.contains(command) {
            list.delivered.push(*command);
        }
    }
    Ok(())
}

fn site_of(number: usize, world: &World) -> Result<&Site, String> {
    world.sites.get(number).ok_or(format!("site {number} is not there"))
}

/// The deliveries, round and log position that the site holds are those read off the list, none twice.
fn check_site_holds(number: usize, list: &ReadOff, world: &World) -> Result<(), String> {
    let site = site_of(number, world)?;
    let held: Vec<usize> = site.deliveries.iter().map(|delivery| delivery.command).collect();
    if held != list.delivered {
        return Err(format!("site {number} holds deliveries {held:?}, the list gives {:?}", list.delivered));
    }
    let different: Set = held.iter().copied().collect();
    if different.len() != held.len() {
        return Err(format!("site {number} delivers a command twice: {held:?}"));
    }
    if site.round != list.rounds_ended + 1 {
        return Err(format!("site {number} is in round {} after {} ends", site.round, list.rounds_ended));
    }
    if site.log_position != list.entries_read {
        return Err(format!("site {number} is at log position {}", site.log_position));
    }
    Ok(())
}

/// For each command, those that must stand before it.
fn needed_before(lists: &BTreeMap<usize, ReadOff>, world: &World) -> BTreeMap<usize, Set> {
    let all: Set = lists.values().flat_map(|list| list.delivered.iter().copied()).collect();
    let mut before: BTreeMap<usize, Set> = all.iter().map(|m| (*m, Set::new())).collect();
    for list in lists.values() {
        let mut delivered = Set::new();
        for command in &list.delivered {
            for other in all.iter().filter(|other| world.rules.book.conflict(*command, **other)) {
                // One that conflicts stands before exactly when this site delivered it before.
                let (first, second) = if delivered.contains(other) { (other, command) } else { (command, other) };
                before.entry(*second).or_default().insert(*first);
            }
            delivered.insert(*command);
        }
    }
    before
}

/// A sequence in which each command stands after all that must stand before it, lowest number first.
fn find_sequence(lists: &BTreeMap<usize, ReadOff>, world: &World) -> Result<Vec<usize>, String> {
    let mut before = needed_before(lists, world);
    let mut sequence = Vec::new();
    while !before.is_empty() {
        let placed: Set = sequence.iter().copied().collect();
        let next = before.iter().find(|(_, needed)| needed.is_subset(&placed)).map(|(m, _)| *m);
        let Some(next) = next else {
            return Err(format!("no sequence fits the deliveries: each of these needs another first: {before:?}"));
        };
        before.remove(&next);
        sequence.push(next);
    }
    Ok(sequence)
}

/// The sequence holds exactly the commands delivered at correct sites, each once.
fn check_members(sequence: &[usize], lists: &BTreeMap<usize, ReadOff>) -> Result<(), String> {
    let delivered: Set = lists.values().flat_map(|list| list.delivered.iter().copied()).collect();
    let members: Set = sequence.iter().copied().collect();
    if members != delivered || members.len() != sequence.len() {
        return Err(format!("sequence {sequence:?} is not the delivered commands {delivered:?}, each once"));
    }
    Ok(())
}

/// Each command is delivered only after all that conflict with it and stand before it in the sequence.
fn check_order(number: usize, list: &ReadOff, sequence: &[usize], world: &World) -> Result<(), String> {
    for (place, command) in list.delivered.iter().enumerate() {
        let earlier = list.delivered.get(..place).unwrap_or(&[]);
        for other in sequence.iter().take_while(|other| *other != command) {
            if world.rules.book.conflict(*command, *other) && !earlier.contains(other) {
                return Err(format!("site {number} delivers {command} without {other}, which stands before it"));
            }
        }
    }
    Ok(())
}

/// Executes commands from the opening register.
fn execute(sequence: impl Iterator<Item = usize>, world: &World) -> (Register, BTreeMap<usize, i32>) {
    let mut register = Register::default();
    let mut answers = BTreeMap::new();
    for number in sequence {
        if let Some(command) = world.rules.book.command(number) {
            answers.insert(number, register.execute(command));
        }
    }
    (register, answers)
}

/// Each answer that the site holds is the one that executing the whole sequence gives.
fn check_answers(number: usize, sequence: &[usize], world: &World) -> Result<(), String> {
    let (_, answers) = execute(sequence.iter().copied(), world);
    for Delivery { command, answer } in &site_of(number, world)?.deliveries {
        let given = answers.get(command);
        if given != Some(answer) {
            return Err(format!("site {number} answers {command} with {answer}, the sequence gives {given:?}"));
        }
    }
    Ok(())
}

/// The site's register is that of its own commands in the order of the sequence.
fn check_register(number: usize, list: &ReadOff, sequence: &[usize], world: &World) -> Result<(), String> {
    let own = sequence.iter().copied().filter(|command| list.delivered.contains(command));
    let (register, _) = execute(own, world);
    let held = &site_of(number, world)?.register;
    if *held != register {
        return Err(format!("site {number} holds register {held:?}, its commands give {register:?}"));
    }
    Ok(())
}
