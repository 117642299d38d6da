//! Times of several processes become one table.

use bench::processes::{combined, from_text, to_text, Choice};

#[test]
fn times_read_back_as_told() {
    let times = vec![vec![982.25, 3.5, 0.0], vec![1.0 / 3.0, 2e-9]];
    assert_eq!(from_text(&to_text(&times)), times);
}

#[test]
fn the_best_or_the_middle_of_the_processes_counts_for_each_program() {
    let all = [
        vec![vec![5.0, 1.0], vec![5.0, 1.0]],
        vec![vec![4.0, 3.0], vec![4.0, 3.0]],
        vec![vec![9.0, 2.0], vec![9.0, 2.0]],
    ];
    assert_eq!(combined(&all, &[Choice::Best, Choice::Middle]), [[4.0, 1.0], [5.0, 2.0]]);
}
