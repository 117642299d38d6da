//! Faults planted into the reference's world: the random runs must tell each of them, by a small run.

use compare::generator;
use compare::parts::Parts;
use compare::program::{compare, Program, Reference};
use compare::settings::say;
use reference::{play_run, print, without, Delivery, Entry, Kind, Phase, Site, Step, World};

type Verdict = Result<(), u32>;

/// Changes the world or the verdict after a step; the addressed site is given as it was before it.
type Fault = fn(&Site, &Step, usize, &mut World, &mut Verdict);

/// The reference with a planted fault.
struct Planted {
    fault: Fault,
}

/// The site that a step is about.
fn addressed(step: &Step) -> Option<usize> {
    match step {
        Step::Command { to, .. }
        | Step::Acknowledgment { to, .. }
        | Step::Check { to, .. }
        | Step::FaultyAcknowledgment { to, .. }
        | Step::FaultyCheck { to, .. } => Some(*to),
        Step::FaultyEntry { .. } => None,
        Step::Turn { site } | Step::FastDelivery { site, .. } | Step::LogRead { site } | Step::RoundEnd { site } => {
            Some(*site)
        }
    }
}

impl Program for Planted {
    fn play(&mut self, run: &[u8]) -> Vec<u8> {
        let (Ok(mut played), Some(parts)) = (play_run(run), Parts::read(run)) else {
            return reference::play(run);
        };
        let opening = Parts { steps: Vec::new(), tail: Vec::new(), ..parts }.bytes();
        played.world = play_run(&opening).expect("the opening is taken").world;
        for (step, verdict) in played.steps.iter().zip(&mut played.verdicts) {
            let place = addressed(step).filter(|place| *place < played.world.sites.len());
            let before = place.map(|place| (place, played.world.sites[place].clone()));
            *verdict = played.world.step(step);
            if let Some((place, before)) = before {
                (self.fault)(&before, step, place, &mut played.world, verdict);
            }
        }
        print::print(&played)
    }
}

fn drop_acknowledgment_of_later_round(before: &Site, step: &Step, place: usize, world: &mut World, _: &mut Verdict) {
    if let Step::Acknowledgment { round, .. } | Step::FaultyAcknowledgment { round, .. } = step {
        if *round > before.round {
            world.sites[place].heard = before.heard.clone();
        }
    }
}

fn drop_acknowledgment_of_other_round(before: &Site, step: &Step, place: usize, world: &mut World, _: &mut Verdict) {
    if let Step::Acknowledgment { round, .. } | Step::FaultyAcknowledgment { round, .. } = step {
        if *round != before.round {
            world.sites[place] = before.clone();
        }
    }
}

fn count_acknowledgment_of_earlier_round(
    before: &Site,
    step: &Step,
    place: usize,
    world: &mut World,
    verdict: &mut Verdict,
) {
    let (from, round, set) = match (step, verdict) {
        (Step::FaultyAcknowledgment { from, round, set, .. }, Ok(())) => (from, round, set),
        (Step::Acknowledgment { from, round, a, .. }, Ok(())) => {
            (from, round, &world.acknowledgments[&(*from, *round)][a - 1])
        }
        _ => return,
    };
    if *round < before.round {
        world.sites[place].heard.entry((before.round, *from)).or_default().extend(set);
    }
}

fn keep_only_last_acknowledgment(_: &Site, step: &Step, place: usize, world: &mut World, verdict: &mut Verdict) {
    if let (Step::FaultyAcknowledgment { from, round, set, .. }, Ok(())) = (step, verdict) {
        world.sites[place].heard.insert((*round, *from), set.clone());
    }
}

fn grow_pending_while_waiting(before: &Site, _: &Step, place: usize, world: &mut World, _: &mut Verdict) {
    let site = &mut world.sites[place];
    if before.phase != Phase::Acknowledging && site.phase != Phase::Acknowledging {
        site.pending.extend(site.open());
    }
}

fn answer_add_with_the_reading(before: &Site, _: &Step, place: usize, world: &mut World, _: &mut Verdict) {
    let site = &mut world.sites[place];
    for delivery in site.deliveries.iter_mut().skip(before.deliveries.len()) {
        let Some(command) = world.rules.book.command(delivery.command) else { continue };
        if let Kind::Add { .. } = command.kind {
            delivery.answer = site.register.readings[command.bike] as i32;
        }
    }
}

/// Ends the round as if these were the entries the site has read.
fn end_round_by(entries: &[Entry], before: &Site, place: usize, world: &mut World, verdict: &mut Verdict) {
    let mut site = before.clone();
    site.log_position = entries.len();
    *verdict = site.round_end(&world.rules, entries);
    site.log_position = before.log_position;
    world.sites[place] = site;
}

fn is_round_end(step: &Step, verdict: &Verdict) -> bool {
    // A step that was refused for its operands stays refused.
    matches!(step, Step::RoundEnd { .. }) && !matches!(verdict, Err(4 | 5))
}

fn count_first_of_two_entries(before: &Site, step: &Step, place: usize, world: &mut World, verdict: &mut Verdict) {
    if is_round_end(step, verdict) {
        let mut first: Vec<Entry> = Vec::new();
        for entry in before.entries_read(&world.log) {
            if !first.iter().any(|other| (other.site, other.round) == (entry.site, entry.round)) {
                first.push(entry.clone());
            }
        }
        end_round_by(&first, before, place, world, verdict);
    }
}

fn let_later_entries_count(before: &Site, step: &Step, place: usize, world: &mut World, verdict: &mut Verdict) {
    if is_round_end(step, verdict) {
        let mut reversed = before.entries_read(&world.log).to_vec();
        reversed.reverse();
        end_round_by(&reversed, before, place, world, verdict);
    }
}

fn let_conflicting_nc_stand(before: &Site, step: &Step, place: usize, world: &mut World, verdict: &mut Verdict) {
    if is_round_end(step, verdict) {
        let mut mended = before.entries_read(&world.log).to_vec();
        for entry in &mut mended {
            if !world.rules.book.is_free_of_conflict(&entry.nc) {
                entry.c.extend(std::mem::take(&mut entry.nc));
            }
        }
        end_round_by(&mended, before, place, world, verdict);
    }
}

fn deliver_a_round_in_plain_order(before: &Site, step: &Step, place: usize, world: &mut World, _: &mut Verdict) {
    if let Step::RoundEnd { .. } = step {
        let site = &mut world.sites[place];
        let mut new: Vec<usize> = site.deliveries.iter().map(|delivery| delivery.command).collect();
        new = new.split_off(before.deliveries.len());
        new.sort_unstable();
        site.register = before.register.clone();
        site.deliveries = before.deliveries.clone();
        for command in new {
            let Some(line) = world.rules.book.command(command) else { continue };
            let answer = site.register.execute(line);
            site.deliveries.push(Delivery { command, answer });
        }
    }
}

fn never_deliver_fast(before: &Site, step: &Step, place: usize, world: &mut World, verdict: &mut Verdict) {
    if matches!((step, &verdict), (Step::FastDelivery { .. }, Ok(()))) {
        world.sites[place] = before.clone();
        *verdict = Err(6);
    }
}

fn hear_own_acknowledgment_at_once(before: &Site, step: &Step, place: usize, world: &mut World, _: &mut Verdict) {
    if let Step::Turn { .. } = step {
        let site = &mut world.sites[place];
        if site.pending != before.pending {
            site.heard.entry((site.round, place)).or_default().extend(&site.pending);
        }
    }
}

fn take_a_check_for_an_acknowledgment(_: &Site, step: &Step, place: usize, world: &mut World, verdict: &mut Verdict) {
    if let (Step::FaultyCheck { from, round, set, .. }, Ok(())) = (step, verdict) {
        world.sites[place].heard.entry((*round, *from)).or_default().extend(set);
    }
}

fn acknowledge_only_what_is_new(before: &Site, step: &Step, place: usize, world: &mut World, _: &mut Verdict) {
    if let Step::Turn { .. } = step {
        let new = without(&world.sites[place].pending, &before.pending);
        let sent = world.acknowledgments.get_mut(&(place, before.round)).and_then(|sets| sets.last_mut());
        if let (Some(last), false) = (sent, new.is_empty()) {
            *last = new;
        }
    }
}

const FAULTS: [(&str, Fault); 14] = [
    ("drop an acknowledgment of a later round", drop_acknowledgment_of_later_round),
    ("drop an acknowledgment of another round", drop_acknowledgment_of_other_round),
    ("count an acknowledgment of an earlier round", count_acknowledgment_of_earlier_round),
    ("keep only a sender's last acknowledgment", keep_only_last_acknowledgment),
    ("grow pending while waiting", grow_pending_while_waiting),
    ("answer ADD with the reading", answer_add_with_the_reading),
    ("count the first of two entries", count_first_of_two_entries),
    ("let later entries count", let_later_entries_count),
    ("let a conflicting NC stand", let_conflicting_nc_stand),
    ("deliver a round in plain order", deliver_a_round_in_plain_order),
    ("never deliver fast", never_deliver_fast),
    ("hear one's own acknowledgment at once", hear_own_acknowledgment_at_once),
    ("take a check for an acknowledgment", take_a_check_for_an_acknowledgment),
    ("acknowledge only what is new", acknowledge_only_what_is_new),
];

/// The place and the shrunk size of the first run that tells the fault from the reference.
fn first_found(fault: Fault) -> Option<(u64, usize, usize)> {
    let mut planted = Planted { fault };
    for place in 0..20_000 {
        let run = generator::run(1, place);
        if run.len() > 4_000 {
            continue;
        }
        if let Some(difference) = compare(&run, &mut planted, &mut Reference) {
            let steps = Parts::read(&difference.run).map_or(0, |parts| parts.steps.len());
            return Some((place, steps, difference.run.len()));
        }
    }
    None
}

#[test]
fn each_planted_fault_is_found_and_shrunk() {
    for (name, fault) in FAULTS {
        let (place, steps, bytes) = first_found(fault).unwrap_or_else(|| panic!("no run tells: {name}"));
        say(&format!("{name}: run {place}, shrunk to {steps} steps in {bytes} bytes"));
        assert!(steps <= 150, "{name} is only shrunk to {steps} steps");
    }
}

/// Prints refusals of one number as another.
struct Renumbered {
    from: &'static str,
    to: &'static str,
}

impl Program for Renumbered {
    fn play(&mut self, run: &[u8]) -> Vec<u8> {
        let text = String::from_utf8(reference::play(run)).expect("the print is ASCII");
        text.replace(self.from, self.to).into_bytes()
    }
}

#[test]
fn a_wrong_number_is_found_and_shrunk() {
    for number in [1, 2, 3, 4, 5, 6, 7] {
        let from: &'static str = format!("refused {number}\n").leak();
        let mut renumbered = Renumbered { from, to: "refused 0\n" };
        let found = (0..5_000).find_map(|place| compare(&generator::run(2, place), &mut renumbered, &mut Reference));
        let difference = found.unwrap_or_else(|| panic!("no run is refused as {number}"));
        assert!(difference.run.len() <= 80, "refusal {number} is only shrunk to {}", difference.run.len());
        assert!(difference.to_string().contains("refused 0\n"));
    }
}
