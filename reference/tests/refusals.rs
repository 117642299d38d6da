//! Refusals of whole runs: each number, the order between them, and what a refusal leaves.

use reference::play;

fn text(run: &[u8]) -> String {
    String::from_utf8(play(run)).expect("the print is ASCII")
}

/// Six sites, site 5 faulty, with FIT bike 5 and READ bike 5, then these steps.
fn six(steps: &[u8]) -> Vec<u8> {
    let mut run = vec![6, 1, 0x20, 0, 12, 0, 0x02, 5, 7, 0, 0, 0, 0xB0, 0x36, 0, 0, 0x03, 5];
    run.extend(steps);
    run
}

/// The refusals of a run as step and number.
fn refusals(run: &[u8]) -> Vec<(usize, u32)> {
    let mut found = Vec::new();
    for line in text(run).lines().filter(|line| line.starts_with("step ")) {
        let words: Vec<&str> = line.split(' ').collect();
        found.push((words[1].parse().unwrap(), words[3].parse().unwrap()));
    }
    found
}

/// The number that refuses a single step in the run of six sites, 0 where it is taken.
fn verdict(step: &[u8]) -> u32 {
    refusals(&six(step)).first().map_or(0, |(_, number)| *number)
}

const NO: [u8; 8] = [0; 8];
const BEYOND: [u8; 8] = [4, 0, 0, 0, 0, 0, 0, 0];

#[test]
fn size() {
    let mut run = vec![1, 0, 0, 0, 0, 0];
    run.resize(60_000, 0x07);
    assert!(text(&run).starts_with("run 1 sites"));
    run.push(0x07);
    assert_eq!(text(&run), "refused 9\n");
    assert_eq!(text(&vec![0xFF; 60_001]), "refused 9\n");
}

#[test]
fn header() {
    for cut in 0..6 {
        assert_eq!(text(&[6, 1, 0x20, 0, 0, 0][..cut]), "refused 2\n");
    }
    assert_eq!(text(&[6, 1, 0x20, 0, 1, 0]), "refused 2\n");
    assert_eq!(text(&[6, 1, 0x40, 0, 0, 0]), "refused 2\n");
    assert_eq!(text(&[6, 1, 0x30, 0, 0, 0]), "refused 2\n");
    assert_eq!(text(&[6, 1, 0, 0x80, 0, 0]), "refused 2\n");
    assert_eq!(text(&[5, 1, 0, 0, 0, 0]), "refused 2\n");
    assert!(text(&[6, 1, 0, 0, 0, 0]).starts_with("run 6 sites 0 liars 0 commands\nsite 00"));
    // 2 comes before 1: the book length goes past the end and the book has an unknown kind.
    assert_eq!(text(&[1, 0, 0, 0, 2, 0, 0x09]), "refused 2\n");
}

#[test]
fn books() {
    let refused: [&[u8]; 8] =
        [&[0], &[5, 0], &[1], &[1, 0, 1], &[2, 0, 1, 1, 1, 1, 0, 0, 0], &[3, 32], &[4, 0, 0], &[3, 0, 4, 0, 0]];
    for book in refused {
        let run = [&[1, 0, 0, 0, book.len() as u8, 0][..], book].concat();
        assert_eq!(text(&run), "refused 1\n");
    }
    let book_of = |count: usize| [&[1, 0, 0, 0, 2 * count as u8, 0][..], &[3, 31].repeat(count)].concat();
    assert!(text(&book_of(64)).starts_with("run 1 sites 0 liars 64 commands"));
    assert_eq!(text(&book_of(65)), "refused 1\n");
}

#[test]
fn form_ends_the_reading() {
    // An unknown code; what follows is not read.
    assert_eq!(refusals(&six(&[0x0A, 0, 0x0B, 0x0A, 0])), vec![(1, 6), (2, 3)]);
    assert_eq!(refusals(&six(&[0x00])), vec![(1, 3)]);
    // Cut operands, judged before any operand's range.
    assert_eq!(refusals(&six(&[0x01, 0xFF])), vec![(1, 3)]);
    assert_eq!(refusals(&six(&[&[0x06, 5, 1][..], &NO, &NO[..7]].concat())), vec![(1, 3)]);
    assert!(text(&six(&[0x00])).ends_with("site 04 round 01 delivered\n"));
}

#[test]
fn ranges() {
    for step in [&[1, 6, 0][..], &[1, 0, 2], &[2, 6, 0, 1, 1], &[2, 0, 6, 1, 1], &[2, 0, 0, 0, 1]] {
        assert_eq!(verdict(step), 4);
    }
    for step in [&[2, 0, 0, 34, 1][..], &[2, 0, 0, 1, 0], &[2, 0, 0, 1, 65], &[3, 0, 0, 0], &[3, 0, 0, 34]] {
        assert_eq!(verdict(step), 4);
    }
    for step in [&[7, 6][..], &[8, 6, 0], &[8, 0, 2], &[9, 255], &[10, 6]] {
        assert_eq!(verdict(step), 4);
    }
    // Rounds go to 33 in messages, to 32 in a log entry.
    assert_eq!(verdict(&[&[4, 0, 5, 33][..], &NO].concat()), 0);
    assert_eq!(verdict(&[&[4, 0, 5, 34][..], &NO].concat()), 4);
    assert_eq!(verdict(&[&[5, 0, 5, 33][..], &NO].concat()), 0);
    assert_eq!(verdict(&[&[6, 5, 32][..], &NO, &NO].concat()), 0);
    assert_eq!(verdict(&[&[6, 5, 33][..], &NO, &NO].concat()), 4);
    assert_eq!(verdict(&[&[6, 5, 0][..], &NO, &NO].concat()), 4);
    assert_eq!(verdict(&[&[6, 5, 1][..], &NO, &BEYOND].concat()), 4);
}

#[test]
fn roles() {
    for step in [&[1, 5, 0][..], &[2, 5, 0, 1, 1], &[2, 0, 5, 1, 1], &[3, 5, 0, 1], &[3, 0, 5, 1]] {
        assert_eq!(verdict(step), 5);
    }
    for step in [&[7, 5][..], &[8, 5, 0], &[9, 5], &[10, 5]] {
        assert_eq!(verdict(step), 5);
    }
    assert_eq!(verdict(&[&[4, 0, 1, 1][..], &NO].concat()), 5);
    assert_eq!(verdict(&[&[4, 5, 5, 1][..], &NO].concat()), 5);
    assert_eq!(verdict(&[&[6, 0, 1][..], &NO, &NO].concat()), 5);
    // 4 comes before 5 over the whole step.
    assert_eq!(verdict(&[&[4, 0, 1, 1][..], &BEYOND].concat()), 4);
    assert_eq!(verdict(&[&[6, 0, 1][..], &NO, &BEYOND].concat()), 4);
    assert_eq!(verdict(&[8, 5, 2]), 4);
}

#[test]
fn not_enabled_or_never_sent() {
    for step in [&[2, 0, 1, 1, 1][..], &[2, 0, 0, 33, 64], &[3, 0, 1, 1], &[7, 0], &[8, 0, 0], &[9, 0], &[10, 0]] {
        assert_eq!(verdict(step), 6);
    }
    // A second acknowledgment that was not sent, and a turn without anything new.
    assert_eq!(refusals(&six(&[1, 0, 0, 7, 0, 2, 1, 0, 1, 1, 2, 1, 0, 1, 2, 7, 0])), vec![(4, 6), (5, 6)]);
}

#[test]
fn refused_steps_change_nothing() {
    let taken = six(&[1, 0, 0, 7, 0, 2, 0, 0, 1, 1]);
    let with_refused = six(&[1, 0, 0, 8, 0, 0, 7, 0, 7, 0, 10, 0, 2, 0, 0, 1, 1, 9, 0]);
    let sites = |run: &[u8]| -> Vec<String> {
        text(run).lines().filter(|line| line.starts_with("site")).map(String::from).collect()
    };
    assert_eq!(sites(&taken), sites(&with_refused));
    assert_eq!(refusals(&with_refused), vec![(2, 6), (4, 6), (5, 6), (7, 6)]);
}
