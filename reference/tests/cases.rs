//! Every row of document 01's table of cases, and the whole case.

use reference::{decide, play, refusal, Book, Entry, Message, MessageKind, Register};
use reference::{Rules, Set, Site, SiteTable, Step, World};

fn book(bytes: &[u8]) -> Book {
    Book::read(bytes).expect("the book is taken")
}

fn rules(sites: usize, faults: usize, bytes: &[u8]) -> Rules {
    Rules { table: SiteTable::new(sites, faults).expect("the table is taken"), book: book(bytes) }
}

fn set(commands: &[usize]) -> Set {
    commands.iter().copied().collect()
}

/// The answers of a book executed in number order from the opening register, and the register.
fn execute(bytes: &[u8]) -> (Vec<i32>, Register) {
    let book = book(bytes);
    let mut register = Register::default();
    let commands = (0..book.count()).filter_map(|m| book.command(m));
    let answers = commands.map(|command| register.execute(command)).collect();
    (answers, register)
}

/// Two commands on bike 5 that conflict.
const FIT_READ: [u8; 12] = [0x02, 5, 7, 0, 0, 0, 0xB0, 0x36, 0, 0, 0x03, 5];

fn text(run: &[u8]) -> String {
    String::from_utf8(play(run)).expect("the print is ASCII")
}

#[test]
fn whole_case() {
    let mut run = vec![0x01, 0, 0, 0, 0x0C, 0];
    run.extend(FIT_READ);
    run.extend([0x01, 0, 0, 0x01, 0, 1, 0x07, 0, 0x09, 0, 0x0A, 0]);
    let expected = "run 1 sites 0 liars 2 commands\nsite 00 round 02 delivered 00=0 01=14000\n";
    assert_eq!(text(&run), expected);
}

#[test]
fn site_tables() {
    assert!(SiteTable::new(6, 1).is_ok());
    assert_eq!(SiteTable::new(5, 1), Err(refusal::HEADER));
    let table = SiteTable::new(6, 1).unwrap();
    assert_eq!((table.n_ack(), table.n_chk(), table.majority()), (5, 5, 3));
    assert_eq!(SiteTable::new(11, 2).unwrap().majority(), 5);
    assert_eq!(SiteTable::new(4, 0).unwrap().majority(), 3);
    for (sites, faults) in [(0, 0), (12, 0), (12, 2), (10, 2), (11, 3), (16, 3)] {
        assert_eq!(SiteTable::new(sites, faults), Err(refusal::HEADER));
    }
}

#[test]
fn empty_book() {
    assert_eq!(book(&[]).count(), 0);
    assert_eq!(text(&[1, 0, 0, 0, 0, 0]), "run 1 sites 0 liars 0 commands\nsite 00 round 01 delivered\n");
}

#[test]
fn fit_start() {
    // 999,999 is 0F423F, 1,000,000 is 0F4240.
    assert_eq!(book(&[0x02, 0, 0, 0, 0, 0, 0x3F, 0x42, 0x0F, 0]).count(), 1);
    assert_eq!(Book::read(&[0x02, 0, 0, 0, 0, 0, 0x40, 0x42, 0x0F, 0]), Err(refusal::BOOK));
}

#[test]
fn add_is_held() {
    // FIT 999,990, ADD 20, READ.
    let bytes = [0x02, 0, 0, 0, 0, 0, 0x36, 0x42, 0x0F, 0, 0x01, 0, 20, 0, 0x03, 0];
    assert_eq!(execute(&bytes).0, vec![0, 0, 999_999]);
}

#[test]
fn trim_is_held() {
    // FIT 5, TRIM -9, READ; then FIT 5, TRIM 0, READ.
    let fit_5 = [0x02, 0, 0, 0, 0, 0, 5, 0, 0, 0];
    let minus_9 = [&fit_5[..], &[0x04, 0, 0xF7, 0xFF, 0x03, 0]].concat();
    assert_eq!(execute(&minus_9).0, vec![0, -5, 0]);
    let zero = [&fit_5[..], &[0x04, 0, 0, 0, 0x03, 0]].concat();
    assert_eq!(execute(&zero).0, vec![0, 0, 5]);
}

#[test]
fn conflicts() {
    // ADD, ADD, READ, READ on bike 0, ADD on bike 1, FIT, FIT, TRIM on bike 0.
    let fit = [0x02, 0, 1, 0, 0, 0, 0, 0, 0, 0];
    let mut bytes = vec![0x01, 0, 1, 0, 0x01, 0, 1, 0, 0x03, 0, 0x03, 0, 0x01, 1, 1, 0];
    bytes.extend([&fit[..], &fit[..], &[0x04, 0, 1, 0]].concat());
    let book = book(&bytes);
    assert!(!book.conflict(0, 1) && book.conflict(0, 2) && !book.conflict(2, 3));
    assert!(!book.conflict(0, 4) && !book.conflict(4, 7));
    assert!(book.conflict(5, 6) && book.conflict(0, 5) && book.conflict(2, 7) && book.conflict(0, 7));
    assert!((0..8).all(|m| !book.conflict(m, m)));
}

#[test]
fn fast_delivery_needs_n_ack_senders() {
    let rules = rules(6, 1, &[0x03, 0]);
    let mut site = Site::start();
    site.receive_command(&rules, 0).unwrap();
    site.turn(&rules, 0, &mut Vec::new()).unwrap();
    let message = |kind, round| Message { kind, round, set: set(&[0]) };
    let acknowledgment = message(MessageKind::Acknowledgment, 1);
    for sender in 0..4 {
        site.receive(&rules, sender, &acknowledgment).unwrap();
    }
    // The same sender again, another round, and a check message are no fifth sender.
    site.receive(&rules, 3, &acknowledgment).unwrap();
    site.receive(&rules, 4, &message(MessageKind::Acknowledgment, 2)).unwrap();
    site.receive(&rules, 4, &message(MessageKind::Check, 1)).unwrap();
    assert_eq!(site.fast_delivery(&rules, 0), Err(refusal::NOT_ENABLED));
    site.receive(&rules, 5, &acknowledgment).unwrap();
    assert_eq!(site.fast_delivery(&rules, 0), Ok(()));
    assert_eq!(site.deliveries.len(), 1);
    // Fast delivery of m a second time.
    assert_eq!(site.fast_delivery(&rules, 0), Err(refusal::NOT_ENABLED));
}

/// Five entries of round 1 with these sets.
fn five(sets: [(&[usize], &[usize]); 5]) -> Vec<Entry> {
    let entry = |(site, (nc, c)): (usize, (&[usize], &[usize]))| Entry { site, round: 1, nc: set(nc), c: set(c) };
    sets.into_iter().enumerate().map(entry).collect()
}

#[test]
fn majority_of_nc_sets() {
    let rules = rules(6, 1, &FIT_READ);
    let log = five([(&[0], &[1]), (&[0], &[1]), (&[0], &[1]), (&[], &[1]), (&[], &[1])]);
    assert_eq!(decide(1, &log[..4], &rules), None);
    let decision = decide(1, &log, &rules).unwrap();
    assert_eq!((decision.nc_set, decision.c_set, decision.place), (set(&[0]), set(&[1]), 4));
    let log = five([(&[0], &[1]), (&[0], &[1]), (&[], &[0, 1]), (&[], &[0, 1]), (&[], &[0, 1])]);
    let decision = decide(1, &log, &rules).unwrap();
    assert_eq!((decision.nc_set, decision.c_set), (set(&[]), set(&[0, 1])));
}

#[test]
fn one_site_decides_alone() {
    let mut world = World::start(rules(1, 0, &FIT_READ), Set::new());
    for command in 0..2 {
        world.step(&Step::Command { to: 0, command }).unwrap();
    }
    world.step(&Step::Turn { site: 0 }).unwrap();
    assert_eq!(world.log, vec![Entry { site: 0, round: 1, nc: set(&[]), c: set(&[0, 1]) }]);
    world.step(&Step::LogRead { site: 0 }).unwrap();
    world.step(&Step::RoundEnd { site: 0 }).unwrap();
    let delivered: Vec<usize> = world.sites[0].deliveries.iter().map(|delivery| delivery.command).collect();
    assert_eq!(delivered, vec![0, 1]);
}

#[test]
fn third_entry_of_a_faulty_site() {
    let mut world = World::start(rules(6, 1, &FIT_READ), set(&[5]));
    let entry = |round| Step::FaultyEntry { from: 5, round, nc: set(&[0]), c: set(&[]) };
    assert_eq!(world.step(&entry(1)), Ok(()));
    assert_eq!(world.step(&entry(1)), Ok(()));
    assert_eq!(world.step(&entry(1)), Err(refusal::THIRD_ENTRY));
    assert_eq!(world.step(&entry(2)), Ok(()));
    assert_eq!(world.log.len(), 3);
}
