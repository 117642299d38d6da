//! Small runs of several sites, and the checker of the common sequence on them.

use reference::{
    common_sequence, decide, Book, Entry, Message, MessageKind, Phase, Rules, Set, SiteTable, Step, World,
};

/// ADD 3 on bike 0, FIT 100 on bike 0, READ bike 0, ADD 4 on bike 0, READ bike 1.
const BOOK: [u8; 22] = [1, 0, 3, 0, 2, 0, 9, 0, 0, 0, 100, 0, 0, 0, 3, 0, 1, 0, 4, 0, 3, 1];

fn set(commands: &[usize]) -> Set {
    commands.iter().copied().collect()
}

/// A world with the steps taken so far and their verdicts.
struct Stage {
    world: World,
    steps: Vec<Step>,
    verdicts: Vec<Result<(), u32>>,
}

impl Stage {
    fn new(sites: usize, faults: usize, faulty: &[usize]) -> Stage {
        let rules = Rules { table: SiteTable::new(sites, faults).unwrap(), book: Book::read(&BOOK).unwrap() };
        Stage { world: World::start(rules, set(faulty)), steps: Vec::new(), verdicts: Vec::new() }
    }

    fn step(&mut self, step: Step) -> Result<(), u32> {
        let verdict = self.world.step(&step);
        self.steps.push(step);
        self.verdicts.push(verdict);
        verdict
    }

    fn command_and_turn(&mut self, sites: impl Iterator<Item = usize>, command: usize) {
        for to in sites {
            self.step(Step::Command { to, command }).unwrap();
            self.step(Step::Turn { site: to }).unwrap();
        }
    }

    fn read_all_and_end(&mut self, site: usize) {
        while self.world.sites[site].log_position < self.world.log.len() {
            self.step(Step::LogRead { site }).unwrap();
        }
        self.step(Step::RoundEnd { site }).unwrap();
    }

    fn check(&self) -> Result<Vec<usize>, String> {
        common_sequence(&self.steps, &self.verdicts, &self.world)
    }

    fn delivered(&self, site: usize) -> Vec<usize> {
        self.world.sites[site].deliveries.iter().map(|delivery| delivery.command).collect()
    }
}

/// Six sites with site 5 faulty; 0 is acknowledged by all, delivered fast at site 0, and then 1 arrives everywhere.
fn fast_then_conflict() -> Stage {
    let mut stage = Stage::new(6, 1, &[5]);
    stage.command_and_turn(0..5, 0);
    for from in 0..5 {
        stage.step(Step::Acknowledgment { to: 0, from, round: 1, a: 1 }).unwrap();
    }
    stage.step(Step::FastDelivery { site: 0, command: 0 }).unwrap();
    stage.command_and_turn(0..5, 1);
    stage
}

#[test]
fn fast_delivery_is_kept_by_the_round() {
    let mut stage = fast_then_conflict();
    assert!(matches!(stage.world.sites[0].phase, Phase::Waiting(_)));
    for site in 0..5 {
        stage.read_all_and_end(site);
        assert_eq!(stage.delivered(site), vec![0, 1]);
        assert_eq!(stage.world.sites[site].register.readings[0], 100);
        assert_eq!(stage.world.sites[site].register.dashes[0], 9);
    }
    assert_eq!(stage.check(), Ok(vec![0, 1]));
}

#[test]
fn faulty_sources_are_struck_out() {
    let mut stage = fast_then_conflict();
    let rules = stage.world.rules.clone();
    // An entry with a conflict in NC before all others, then its second entry: neither stands.
    let entry = |nc: &[usize]| Entry { site: 5, round: 1, nc: set(nc), c: set(&[4]) };
    let log = stage.world.log.clone();
    let conflict_first = [vec![entry(&[0, 1]), entry(&[])], log.clone()].concat();
    let decision = decide(1, &conflict_first, &rules).unwrap();
    assert_eq!((decision.excluded, decision.place), (set(&[5]), 6));
    assert_eq!((decision.nc_set, decision.c_set), (set(&[0]), set(&[1])));
    // A single entry without conflict stands and decides with four others.
    let valid_first = [vec![entry(&[3])], log.clone()].concat();
    let decision = decide(1, &valid_first, &rules).unwrap();
    assert_eq!((decision.place, decision.c_set), (4, set(&[1, 3, 4])));
    // Its second entry after the deciding one does not count.
    let valid_twice = [valid_first.clone(), vec![entry(&[3])]].concat();
    assert_eq!(decide(1, &valid_twice, &rules), decide(1, &valid_first, &rules));
    // A faulty step before anybody reads gives the same.
    stage.step(Step::FaultyEntry { from: 5, round: 1, nc: set(&[0, 1]), c: set(&[]) }).unwrap();
    stage.read_all_and_end(3);
    assert_eq!(stage.check(), Ok(vec![0, 1]));
}

#[test]
fn a_waiting_site_keeps_its_pending_set() {
    let mut stage = fast_then_conflict();
    stage.step(Step::Command { to: 1, command: 4 }).unwrap();
    assert_eq!(stage.step(Step::Turn { site: 1 }), Err(6));
    assert_eq!(stage.world.sites[1].pending, set(&[0]));
    // Fast delivery is possible while waiting.
    for from in 0..5 {
        stage.step(Step::Acknowledgment { to: 1, from, round: 1, a: 1 }).unwrap();
    }
    assert_eq!(stage.step(Step::FastDelivery { site: 1, command: 0 }), Ok(()));
    stage.read_all_and_end(1);
    assert_eq!(stage.delivered(1), vec![0, 1]);
    // What came while waiting is acknowledged in the next round.
    assert_eq!(stage.step(Step::Turn { site: 1 }), Ok(()));
    assert_eq!(stage.world.acknowledgments[&(1, 2)], vec![set(&[4])]);
    assert!(stage.check().is_ok());
}

#[test]
fn acknowledgments_of_other_rounds_are_kept() {
    let mut stage = fast_then_conflict();
    for site in 0..4 {
        stage.read_all_and_end(site);
        stage.step(Step::Command { to: site, command: 2 }).unwrap();
        stage.step(Step::Turn { site }).unwrap();
    }
    // Site 4 is still in round 1 and hears acknowledgments of round 2; they count once it is there.
    for from in 0..4 {
        stage.step(Step::Acknowledgment { to: 4, from, round: 2, a: 1 }).unwrap();
    }
    stage.step(Step::FaultyAcknowledgment { to: 4, from: 5, round: 2, set: set(&[2]) }).unwrap();
    assert_eq!(stage.step(Step::FastDelivery { site: 4, command: 2 }), Err(6));
    stage.read_all_and_end(4);
    assert_eq!(stage.step(Step::FastDelivery { site: 4, command: 2 }), Err(6));
    stage.step(Step::Turn { site: 4 }).unwrap();
    assert_eq!(stage.step(Step::FastDelivery { site: 4, command: 2 }), Ok(()));
    assert_eq!(stage.delivered(4), vec![0, 1, 2]);
    assert_eq!(stage.check(), Ok(vec![0, 1, 2]));
}

#[test]
fn an_acknowledging_site_does_not_end_a_decided_round() {
    let mut stage = Stage::new(1, 0, &[]);
    stage.command_and_turn(0..1, 0);
    assert_eq!(stage.step(Step::RoundEnd { site: 0 }), Err(6));
    stage.command_and_turn(0..1, 1);
    assert_eq!(stage.world.log, vec![Entry { site: 0, round: 1, nc: set(&[0]), c: set(&[1]) }]);
    assert_eq!(stage.step(Step::RoundEnd { site: 0 }), Err(6));
    stage.read_all_and_end(0);
    assert_eq!(stage.step(Step::RoundEnd { site: 0 }), Err(6));
    assert_eq!(stage.check(), Ok(vec![0, 1]));
}

#[test]
fn round_33_is_reached_by_two_commands_a_round() {
    let rules = Rules { table: SiteTable::new(1, 0).unwrap(), book: Book::read(&[4, 0, 1, 0].repeat(64)).unwrap() };
    let mut world = World::start(rules, Set::new());
    for command in 0..64 {
        world.step(&Step::Command { to: 0, command }).unwrap();
        world.step(&Step::Turn { site: 0 }).unwrap();
        if command % 2 == 1 {
            world.step(&Step::LogRead { site: 0 }).unwrap();
            world.step(&Step::RoundEnd { site: 0 }).unwrap();
        }
    }
    assert_eq!((world.sites[0].round, world.sites[0].deliveries.len()), (33, 64));
}

#[test]
fn the_checker_finds_violations() {
    let mut stage = fast_then_conflict();
    (0..5).for_each(|site| stage.read_all_and_end(site));
    assert!(stage.check().is_ok());
    let mut other = stage.world.clone();
    other.sites[2].deliveries.swap(0, 1);
    let spoiled = |world: &World| common_sequence(&stage.steps, &stage.verdicts, world).unwrap_err();
    assert!(spoiled(&other).contains("holds deliveries"));
    let mut other = stage.world.clone();
    other.sites[2].deliveries[1].answer += 1;
    assert!(spoiled(&other).contains("answers 1"));
    let mut other = stage.world.clone();
    other.sites[4].register.dashes[0] = 0;
    assert!(spoiled(&other).contains("register"));
    let mut other = stage.world.clone();
    other.sites[4].round = 3;
    assert!(spoiled(&other).contains("round"));
    let mut other = stage.world.clone();
    other.log.clear();
    assert!(spoiled(&other).contains("does not decide"));
}

#[test]
fn the_checker_finds_an_order_without_a_sequence() {
    // Two sites that deliver 0 and 1, which conflict, in different orders by fast delivery steps.
    let mut stage = Stage::new(2, 0, &[]);
    let fast = |site, command| Step::FastDelivery { site, command };
    for (site, order) in [(0, [0, 1]), (1, [1, 0])] {
        let rules = stage.world.rules.clone();
        stage.world.sites[site].pending = set(&[0, 1]);
        for sender in 0..2 {
            let message = Message { kind: MessageKind::Acknowledgment, round: 1, set: set(&[0, 1]) };
            stage.world.sites[site].receive(&rules, sender, &message).unwrap();
        }
        for command in order {
            stage.step(fast(site, command)).unwrap();
        }
    }
    assert!(stage.check().unwrap_err().contains("no sequence"));
}
