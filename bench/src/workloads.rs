//! The workloads: runs of one kind each.

use crate::writer::Writer;
use compare::draw::Draw;
use compare::generator;
use reference::{play_run, Set, Step};

/// Runs to play, and those whose time is taken off because they only lead up to the steps that are meant.
pub struct Workload {
    pub name: String,
    pub runs: Vec<Vec<u8>>,
    pub before: Vec<Vec<u8>>,
    pub steps: usize,
}

/// How many steps the reference reads in these runs, one that is cut included.
fn steps(runs: &[Vec<u8>]) -> usize {
    let played = runs.iter().filter_map(|run| play_run(run).ok());
    played.map(|played| played.steps.len() + usize::from(played.is_cut)).sum()
}

impl Workload {
    fn new(name: &str, runs: Vec<Vec<u8>>, before: Vec<Vec<u8>>) -> Workload {
        let steps = steps(&runs) - steps(&before);
        Workload { name: String::from(name), runs, before, steps }
    }
}

/// 64 ADDs on a few bikes: no two conflict.
fn free_book() -> Vec<Vec<u8>> {
    (0..64).map(|number| vec![0x01, number % 4, number, 1]).collect()
}

/// 64 FITs and TRIMs on one bike: any two conflict.
pub fn full_book() -> Vec<Vec<u8>> {
    let fit = |number: u8| vec![0x02, 5, number, 0, 0, 0, number, 0x30, 0, 0];
    let trim = |number: u8| vec![0x04, 5, number, 0xFF];
    (0..64).map(|number| if number % 3 == 0 { fit(number) } else { trim(number) }).collect()
}

/// (a) Every command reaches every site, is acknowledged by all to all, and is delivered fast.
fn free(sites: usize) -> Workload {
    let mut writer = Writer::new(sites, 0, free_book());
    for command in 0..64 {
        writer.command(command);
        writer.turns();
        writer.acknowledgments(1, command + 1, &Set::new());
        writer.fast_deliveries(command);
    }
    Workload::new(&format!("a  free of conflicts, {sites} sites"), vec![writer.run()], Vec::new())
}

/// A round with two commands: the first is delivered fast, the second conflicts with it.
pub fn conflicting_round(writer: &mut Writer, round: usize) {
    let (first, second) = (2 * (round - 1), 2 * (round - 1) + 1);
    let (nc, c) = (Set::from([first]), Set::from([second]));
    writer.command(first);
    writer.turns();
    writer.acknowledgments(round, 1, &nc);
    writer.fast_deliveries(first);
    writer.command(second);
    writer.turns();
    for from in writer.faulty.clone() {
        writer.take(Step::FaultyEntry { from, round, nc: nc.clone(), c: c.clone() });
    }
    writer.checks(round);
    let correct = writer.correct.clone();
    writer.end_round(&correct);
}

fn conflicting_run(sites: usize, faulty: usize) -> Vec<u8> {
    let mut writer = Writer::new(sites, faulty, full_book());
    for round in 1..=32 {
        conflicting_round(&mut writer, round);
    }
    writer.run()
}

/// (b) 32 rounds in which commands conflict.
fn full(sites: usize, faulty: usize) -> Workload {
    let name = format!("b  32 rounds of conflicts, {sites} sites, {faulty} faulty");
    Workload::new(&name, vec![conflicting_run(sites, faulty)], Vec::new())
}

/// How many refused steps a run of (c) has.
const REFUSED: usize = 2_500;

/// (c) The steps in turn, or in any order, each refused with its number.
fn refused(name: &str, kinds: &[(Step, u32)], is_in_turn: bool) -> Workload {
    let mut writer = Writer::new(6, 1, full_book());
    let (nc, c) = (Set::from([0]), Set::from([1]));
    for _ in 0..2 {
        writer.take(Step::FaultyEntry { from: 5, round: 1, nc: nc.clone(), c: c.clone() });
    }
    let before = writer.run();
    let mut draw = Draw::new(1, 1);
    for number in 0..REFUSED {
        let place = if is_in_turn { number } else { draw.below(kinds.len()) };
        let (step, refusal) = &kinds[place % kinds.len()];
        writer.refuse(step, *refusal);
    }
    Workload::new(&format!("c  refused: {name}"), vec![writer.run()], vec![before])
}

/// Steps out of range, and of a site that is faulty or should be.
fn judged_alone() -> Vec<(Step, u32)> {
    let set = Set::from([0, 9]);
    vec![
        (Step::Command { to: 0, command: 64 }, 4),
        (Step::Acknowledgment { to: 0, from: 1, round: 34, a: 1 }, 4),
        (Step::FastDelivery { site: 6, command: 0 }, 4),
        (Step::Turn { site: 5 }, 5),
        (Step::FaultyAcknowledgment { to: 0, from: 1, round: 1, set }, 5),
        (Step::LogRead { site: 5 }, 5),
    ]
}

/// Steps that are not enabled, and messages that were never sent.
fn not_enabled() -> Vec<(Step, u32)> {
    vec![
        (Step::Turn { site: 0 }, 6),
        (Step::Acknowledgment { to: 0, from: 1, round: 1, a: 1 }, 6),
        (Step::Check { to: 0, from: 1, round: 1 }, 6),
        (Step::FastDelivery { site: 0, command: 0 }, 6),
        (Step::RoundEnd { site: 0 }, 6),
    ]
}

fn third_entry() -> Vec<(Step, u32)> {
    vec![(Step::FaultyEntry { from: 5, round: 1, nc: Set::from([0]), c: Set::from([1]) }, 7)]
}

/// (d) Runs of one of the generator's kinds.
fn drawn(name: &str, seed: u64, count: u64, run: impl Fn(&mut Draw) -> Vec<u8>) -> Workload {
    let runs = (0..count).map(|place| run(&mut Draw::new(seed, place))).collect();
    Workload::new(&format!("d  generator: {name}"), runs, Vec::new())
}

/// Both commands of a round reach these sites, which then propose them.
pub fn propose(writer: &mut Writer, sites: &[usize], round: usize) {
    for to in sites {
        writer.take(Step::Command { to: *to, command: 2 * (round - 1) });
        writer.take(Step::Command { to: *to, command: 2 * (round - 1) + 1 });
        writer.take(Step::Turn { site: *to });
    }
}

/// Site 0 waits in a round that is not decided, and has read so many entries, all that there are.
///
/// Nine of eleven sites are correct. In the last round eight of them have proposed, one fewer than decide it.
/// The faulty ones fill the log with entries whose NC has a conflict. A run's log has at most 416 entries here.
pub fn mid_round(entries: usize) -> Writer {
    let mut writer = Writer::new(11, 2, full_book());
    let rounds = (entries + 1).div_ceil(13);
    let mut left = entries + 1 - 9 * rounds;
    for round in 1..=rounds {
        let (set, count) = (Set::from([2 * (round - 1), 2 * (round - 1) + 1]), left.min(4));
        for from in [9, 10, 9, 10].into_iter().take(count) {
            writer.take(Step::FaultyEntry { from, round, nc: set.clone(), c: set.clone() });
        }
        left -= count;
        let proposing = if round < rounds { 9 } else { 8 };
        let sites = &writer.correct[..proposing].to_vec();
        propose(&mut writer, sites, round);
        if round < rounds {
            writer.end_round(sites);
        }
    }
    writer.read_all(0);
    assert_eq!(writer.world.log.len(), entries);
    writer
}

/// (e) Attempts to end a round that is not decided, by a site that has read so many entries.
fn attempts(entries: usize) -> Workload {
    let mut writer = mid_round(entries);
    let before = writer.run();
    for _ in 0..REFUSED {
        writer.refuse(&Step::RoundEnd { site: 0 }, 6);
    }
    let name = format!("e  vain round ends, log of {entries}");
    Workload::new(&name, vec![writer.run()], vec![before])
}

/// How many entries of the log are read late in the second part of (e).
const LATE: usize = 50;

/// The faulty sites append entries, two of each in a round and the NC of each with a conflict, to this length.
fn fill_log(writer: &mut Writer, places: &mut impl Iterator<Item = (usize, usize)>, entries: usize) {
    while writer.world.log.len() < entries {
        let (round, from) = places.next().expect("the log may be so long");
        let set = Set::from([0, 1]);
        writer.take(Step::FaultyEntry { from, round, nc: set.clone(), c: set });
    }
}

/// (e) Nine correct sites of eleven read the last entries of a log of this length.
fn late_reads(entries: usize) -> Workload {
    let mut writer = Writer::new(11, 2, full_book());
    let sites = &writer.correct.clone();
    for round in 1..=((entries - LATE) / sites.len()).min(32) {
        propose(&mut writer, sites, round);
        writer.end_round(sites);
    }
    let mut places = (1..=32).flat_map(|round| [9, 10, 9, 10].map(|from| (round, from)));
    fill_log(&mut writer, &mut places, entries - LATE);
    sites.iter().for_each(|site| writer.read_all(*site));
    fill_log(&mut writer, &mut places, entries);
    let before = writer.run();
    sites.iter().for_each(|site| writer.read_all(*site));
    let name = format!("e  log reads, log of {entries}");
    Workload::new(&name, vec![writer.run()], vec![before])
}

/// (f) The run of (b) without faulty sites, by the number of sites.
fn by_sites(sites: usize) -> Workload {
    let name = format!("f  32 rounds of conflicts, {sites} sites");
    Workload::new(&name, vec![conflicting_run(sites, 0)], Vec::new())
}

/// Every workload, in the order of the table.
pub fn all(seed: u64) -> Vec<Workload> {
    let mut all = vec![free(6), free(11), full(6, 1), full(1, 0)];
    all.push(refused("4 and 5", &judged_alone(), true));
    all.push(refused("6", &not_enabled(), true));
    all.push(refused("7", &third_entry(), true));
    let mixed = [judged_alone(), not_enabled(), third_entry()].concat();
    all.push(refused("any, in any order", &mixed, false));
    all.push(drawn("short runs", seed, 300, generator::short));
    all.push(drawn("steps without a plan", seed, 300, generator::noisy));
    all.push(drawn("ten rounds and more", seed, 30, generator::medium));
    all.push(drawn("up to round 33", seed, 15, generator::deep));
    all.extend([50, 100, 200, 300, 400].map(attempts));
    all.extend([50, 100, 200, 300, 400].map(late_reads));
    all.extend((1..=11).map(by_sites));
    all
}
