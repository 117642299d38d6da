//! Makes a run small while something still holds of it.

use crate::parts::Parts;

type Holds<'a> = &'a mut dyn FnMut(&[u8]) -> bool;

/// A small run of which `holds` still holds; it must hold of the given one.
pub fn shrink(run: &[u8], holds: Holds) -> Vec<u8> {
    let mut run = run.to_vec();
    loop {
        let before = run.len();
        run = match Parts::read(&run) {
            Some(parts) => shrink_parts(parts, holds),
            None => shrink_list(run, &mut |bytes| holds(bytes)),
        };
        if run.len() >= before {
            return run;
        }
    }
}

/// Drops parts of a list, halves first and single items last, while `holds` holds of the rest.
fn shrink_list<T: Clone>(mut list: Vec<T>, holds: &mut dyn FnMut(&[T]) -> bool) -> Vec<T> {
    let mut size = list.len().div_ceil(2);
    while size > 0 {
        let mut start = 0;
        while start < list.len() {
            let end = (start + size).min(list.len());
            let mut rest = list[..start].to_vec();
            rest.extend_from_slice(&list[end..]);
            if holds(&rest) {
                list = rest;
            } else {
                start = end;
            }
        }
        size = if size == 1 { 0 } else { size.div_ceil(2) };
    }
    list
}

/// Drops steps, then sites, then commands of the book, then what follows a cut step.
fn shrink_parts(mut parts: Parts, holds: Holds) -> Vec<u8> {
    let frame = Parts { steps: Vec::new(), ..parts.clone() };
    let steps = std::mem::take(&mut parts.steps);
    let with_steps = |steps: &[_]| Parts { steps: steps.to_vec(), ..frame.clone() };
    let steps = shrink_list(steps, &mut |steps| holds(&with_steps(steps).bytes()));
    parts = with_steps(&steps);
    for dropped in (0..usize::from(parts.header[0]).min(11)).rev() {
        match parts.without_site(dropped) {
            Some(smaller) if holds(&smaller.bytes()) => parts = smaller,
            _ => {}
        }
    }
    for dropped in (0..parts.book.len()).rev() {
        let smaller = parts.without_command(dropped);
        if holds(&smaller.bytes()) {
            parts = smaller;
        }
    }
    let frame = Parts { tail: Vec::new(), ..parts.clone() };
    let with_tail = |tail: &[u8]| Parts { tail: tail.to_vec(), ..frame.clone() };
    let tail = shrink_list(parts.tail, &mut |tail| holds(&with_tail(tail).bytes()));
    with_tail(&tail).bytes()
}
