//! One lent site: any state is stepped as it is, and what is refused is refused by number.

use reference::lent::{self, Turn};
use reference::{bytes_of_set, refusal, Book, Delivery, Entry, Phase, Proposal, Rules, Set, Site, SiteTable};

/// Three READs of bike 0 and a FIT of bike 0, so that 3 conflicts with each other command.
fn rules(sites: usize, faults: usize) -> Rules {
    let book = Book::read(&[3, 0, 3, 0, 3, 0, 2, 0, 9, 0, 0, 0, 1, 0, 0, 0]).unwrap();
    Rules { table: SiteTable::new(sites, faults).unwrap(), book }
}

fn set(commands: &[usize]) -> Set {
    commands.iter().copied().collect()
}

fn entry(site: usize, round: usize, nc: &[usize], c: &[usize]) -> Vec<u8> {
    Entry { site, round, nc: set(nc), c: set(c) }.bytes()
}

/// A message of this kind, 1 for an acknowledgment and 2 for a check message.
fn message(kind: u8, round: u8, commands: &[usize]) -> Vec<u8> {
    [&[kind, round][..], &bytes_of_set(&set(commands))].concat()
}

fn waiting() -> Site {
    let mut site = Site::start();
    site.phase = Phase::Waiting(Proposal { nc: set(&[]), c: set(&[]) });
    site
}

#[test]
fn cut_log_is_refused_before_the_site() {
    let rules = rules(1, 0);
    let mut site = Site::start();
    site.round = 34;
    let mut log = entry(0, 1, &[], &[0]);
    log.pop();
    assert_eq!(lent::turn(&mut site, &rules, 0, &log), Err(refusal::FORM));
    assert_eq!(lent::log_read(&mut site, &rules, &log), Err(refusal::FORM));
    assert_eq!(lent::round_end(&mut site, &rules, &log), Err(refusal::FORM));
    assert_eq!(lent::log_read(&mut site, &rules, &[]), Err(refusal::RANGE));
}

#[test]
fn numbers_out_of_range() {
    let rules = rules(6, 1);
    let damages: [fn(&mut Site); 11] = [
        |site| site.round = 0,
        |site| site.round = 34,
        |site| _ = site.received.insert(4),
        |site| _ = site.g_del.insert(63),
        |site| _ = site.pending.insert(4),
        |site| _ = site.g_ack_del.insert(4),
        |site| _ = site.heard.insert((1, 6), Set::new()),
        |site| _ = site.heard.insert((34, 0), Set::new()),
        |site| _ = site.heard.insert((1, 0), Set::from([4])),
        |site| site.register.readings[31] = 1_000_000,
        |site| site.deliveries = vec![Delivery { command: 4, answer: 0 }],
    ];
    for damage in damages {
        let mut site = Site::start();
        damage(&mut site);
        assert_eq!(lent::receive_command(&mut site, &rules, 0), Err(refusal::RANGE));
        assert_eq!(lent::turn(&mut site, &rules, 0, &[]), Err(refusal::RANGE));
        assert_eq!(lent::receive(&mut site, &rules, 0, &message(2, 1, &[])), Err(refusal::RANGE));
        assert_eq!(lent::fast_delivery(&mut site, &rules, 0), Err(refusal::RANGE));
    }
    let mut site = Site::start();
    site.deliveries = vec![Delivery { command: 0, answer: -7 }; 5];
    assert_eq!(lent::receive(&mut site, &rules, 0, &message(2, 1, &[])), Err(refusal::RANGE));
    site.deliveries.pop();
    assert_eq!(lent::receive(&mut site, &rules, 0, &message(2, 1, &[])), Ok(()));
}

#[test]
fn operands_out_of_range() {
    let rules = rules(6, 1);
    let mut site = Site::start();
    assert_eq!(lent::receive_command(&mut site, &rules, 4), Err(refusal::RANGE));
    for kind in [1, 2] {
        let mut receive = |sender, round, set| lent::receive(&mut site, &rules, sender, &message(kind, round, set));
        assert_eq!(receive(6, 1, &[]), Err(refusal::RANGE));
        assert_eq!(receive(0, 0, &[]), Err(refusal::RANGE));
        assert_eq!(receive(0, 34, &[]), Err(refusal::RANGE));
        assert_eq!(receive(0, 255, &[]), Err(refusal::RANGE));
        assert_eq!(receive(0, 33, &[4]), Err(refusal::RANGE));
    }
    assert_eq!(lent::turn(&mut site, &rules, 6, &[]), Err(refusal::RANGE));
    assert_eq!(site, Site::start());
}

#[test]
fn messages_of_another_form_are_refused_before_the_site() {
    let rules = rules(6, 1);
    let mut site = Site::start();
    site.round = 34;
    let longer = [message(1, 1, &[0]), vec![0]].concat();
    let cut = &longer[..9];
    for bytes in [&longer, cut, &[], &message(0, 1, &[0]), &message(3, 1, &[0]), &message(255, 1, &[0])] {
        assert_eq!(lent::receive(&mut site, &rules, 0, bytes), Err(refusal::FORM));
    }
    assert_eq!(lent::receive(&mut site, &rules, 0, &message(1, 1, &[0])), Err(refusal::RANGE));
}

#[test]
fn messages_of_any_round_join() {
    let rules = rules(6, 1);
    let mut site = Site::start();
    lent::receive(&mut site, &rules, 5, &message(2, 33, &[0])).unwrap();
    assert_eq!((&site.received, site.heard.len()), (&set(&[0]), 0));
    lent::receive(&mut site, &rules, 5, &message(1, 33, &[1])).unwrap();
    lent::receive(&mut site, &rules, 5, &message(1, 33, &[2])).unwrap();
    assert_eq!(site.received, set(&[0, 1, 2]));
    assert_eq!(site.heard.into_iter().collect::<Vec<_>>(), [((33, 5), set(&[1, 2]))]);
}

#[test]
fn lent_tables_and_books() {
    let rules = |table: &[u8], book: &[u8]| lent::rules(table, book).map(|rules| rules.table);
    let six = SiteTable::new(6, 1);
    assert_eq!(rules(&[6, 1], &[3, 0]), six);
    // What follows n and f is not looked at: a run's header may be lent, whatever its mask.
    assert_eq!(rules(&[6, 1, 255, 255, 9, 9, 9], &[3, 0]), six);
    for table in [&[][..], &[6], &[5, 1], &[0, 0], &[12, 0], &[11, 3]] {
        assert_eq!(rules(table, &[9]), Err(refusal::HEADER), "{table:?}");
    }
    assert_eq!(rules(&[6, 1], &[9]), Err(refusal::BOOK));
    assert_eq!(SiteTable::read_marked(&[6, 1, 32, 0, 9]).map(|(_, faulty)| faulty), Ok(set(&[5])));
    for table in [&[6, 1, 32][..], &[6, 1, 64, 0], &[6, 1, 3, 0], &[6, 1, 0, 128], &[5, 1, 0, 0]] {
        assert_eq!(SiteTable::read_marked(table), Err(refusal::HEADER), "{table:?}");
    }
}

#[test]
fn entries_before_and_at_the_log_position() {
    let rules = rules(1, 0);
    for bad in [entry(1, 1, &[], &[]), entry(0, 33, &[], &[]), entry(0, 0, &[], &[]), entry(0, 1, &[4], &[])] {
        let mut site = Site::start();
        assert_eq!(lent::log_read(&mut site, &rules, &bad), Err(refusal::RANGE));
        assert_eq!(site.log_position, 0);
        site.log_position = 1;
        assert_eq!(lent::round_end(&mut site, &rules, &bad), Err(refusal::RANGE));
    }
    let three = entry(0, 1, &[], &[]).repeat(3);
    let mut site = Site::start();
    site.log_position = 2;
    assert_eq!(lent::log_read(&mut site, &rules, &three), Err(refusal::THIRD_ENTRY));
    site.log_position = 3;
    assert_eq!(lent::log_read(&mut site, &rules, &three), Err(refusal::RANGE));
    site.log_position = 4;
    assert_eq!(lent::log_read(&mut site, &rules, &three), Err(refusal::RANGE));
    site.log_position = 2;
    assert_eq!(lent::log_read(&mut site, &rules, &three[..36]), Err(refusal::NOT_ENABLED));
}

#[test]
fn turns_that_would_propose() {
    let rules = rules(1, 0);
    let mut site = Site::start();
    site.received = set(&[0, 3]);
    let log = entry(0, 1, &[], &[]).repeat(2);
    assert_eq!(lent::turn(&mut site, &rules, 0, &log), Err(refusal::THIRD_ENTRY));
    site.round = 33;
    assert_eq!(lent::turn(&mut site, &rules, 0, &log), Err(refusal::LAST_ROUND));
    site.round = 32;
    let proposal = Turn { message: message(2, 32, &[0, 3]), entry: Some(entry(0, 32, &[], &[0, 3])) };
    assert_eq!(lent::turn(&mut site, &rules, 0, &log), Ok(proposal));
    let mut site = Site::start();
    site.round = 33;
    site.received = set(&[0, 1]);
    let acknowledgment = Turn { message: message(1, 33, &[0, 1]), entry: None };
    assert_eq!(lent::turn(&mut site, &rules, 0, &log), Ok(acknowledgment));
    assert_eq!(lent::turn(&mut site, &rules, 0, &log), Err(refusal::NOT_ENABLED));
}

#[test]
fn no_room_for_deliveries() {
    let rules = rules(1, 0);
    let mut site = waiting();
    site.deliveries = vec![Delivery { command: 0, answer: 0 }; 4];
    assert_eq!(lent::round_end(&mut site, &rules, &[]), Err(refusal::NOT_ENABLED));
    let log = entry(0, 1, &[0], &[3]);
    site.log_position = 1;
    assert_eq!(lent::round_end(&mut site, &rules, &log), Err(refusal::ROOM));
    site.g_del = set(&[0, 3]);
    assert_eq!(lent::round_end(&mut site, &rules, &log), Ok(()));
    assert_eq!((site.round, site.deliveries.len()), (2, 4));
    site.pending = set(&[1]);
    assert_eq!(lent::fast_delivery(&mut site, &rules, 1), Err(refusal::NOT_ENABLED));
    site.heard.insert((2, 0), set(&[1]));
    assert_eq!(lent::fast_delivery(&mut site, &rules, 1), Err(refusal::ROOM));
}

#[test]
fn inconsistent_sites_are_stepped_as_they_are() {
    let rules = rules(1, 0);
    // Pending outside Received with a conflict, and gAck_del outside both.
    let mut site = Site::start();
    site.pending = set(&[2, 3]);
    site.received = set(&[0, 3]);
    site.g_ack_del = set(&[1]);
    let log = entry(0, 1, &[2, 3], &[0]);
    let proposal = Turn { message: message(2, 1, &[0, 3]), entry: Some(log.clone()) };
    assert_eq!(lent::turn(&mut site, &rules, 0, &[]), Ok(proposal));
    // The conflict in NC strikes the source out, so the round is not decided.
    assert_eq!(lent::log_read(&mut site, &rules, &log), Ok(()));
    assert_eq!(lent::round_end(&mut site, &rules, &log), Err(refusal::NOT_ENABLED));
    // A command already recorded may be delivered again.
    let mut site = waiting();
    site.deliveries = vec![Delivery { command: 1, answer: 5 }];
    site.g_ack_del = set(&[0]);
    site.log_position = 1;
    assert_eq!(lent::round_end(&mut site, &rules, &entry(0, 1, &[0, 1], &[])), Ok(()));
    let delivered: Vec<usize> = site.deliveries.iter().map(|delivery| delivery.command).collect();
    assert_eq!(delivered, vec![1, 1]);
    assert_eq!((site.g_del, site.g_ack_del, site.pending), (set(&[0, 1]), set(&[]), set(&[])));
}
