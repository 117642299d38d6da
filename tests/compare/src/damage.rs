//! Damage to a run's bytes.

use crate::draw::Draw;

/// A place in the run, more often in its header or book than further on.
fn place(draw: &mut Draw, run: &[u8]) -> usize {
    match draw.below(4) {
        0 => draw.below(run.len().min(6)),
        1 => draw.below(run.len().min(30)),
        _ => draw.below(run.len()),
    }
}

/// Changes the bytes in one place, or cuts, doubles or lengthens a part of them.
pub fn damage(draw: &mut Draw, run: &mut Vec<u8>) {
    if run.is_empty() {
        run.push(draw.byte());
        return;
    }
    let at = place(draw, run);
    match draw.below(10) {
        0 => run.truncate(at),
        1 => run.truncate(run.len() - draw.below(run.len().min(19))),
        2 => run[at] = draw.byte(),
        3 => run[at] ^= 1 << draw.below(8),
        4 => run[at] = draw.pick(&[0, 1, 2, 5, 6, 10, 11, 12, 32, 33, 34, 64, 65, 255]),
        5 => run.insert(at, draw.byte()),
        6 => _ = run.remove(at),
        7 => change_book_length(draw, run),
        8 => repeat_part(draw, run, at),
        _ => run.extend([draw.pick(&[0x00, 0x0B, 0xFF]), draw.byte()]),
    }
}

/// Makes the book length wrong by a little or by much.
fn change_book_length(draw: &mut Draw, run: &mut [u8]) {
    let by = draw.pick(&[1, 2, 4, 10, 255, 256, 65_535, 65_534]) as u16;
    if let Some([low, high]) = run.get_mut(4..6) {
        let length = u16::from_le_bytes([*low, *high]).wrapping_add(by);
        [*low, *high] = length.to_le_bytes();
    }
}

/// Repeats a part of the run at its end.
fn repeat_part(draw: &mut Draw, run: &mut Vec<u8>, at: usize) {
    let until = draw.within(at, run.len());
    let part = run[at..until].to_vec();
    run.extend(part);
}
