//! A run taken apart into header, book and steps, and put together again.

use reference::{play_run, Set, Step};

#[derive(Clone, Debug)]
pub struct Parts {
    /// Sites, faults and mask.
    pub header: Vec<u8>,
    pub book: Vec<Vec<u8>>,
    pub steps: Vec<Step>,
    /// What a refusal 3 leaves unread.
    pub tail: Vec<u8>,
}

/// The length of a command by its kind.
fn command_bytes(kind: u8) -> usize {
    match kind {
        0x02 => 10,
        0x03 => 2,
        _ => 4,
    }
}

impl Parts {
    /// The parts of a run whose size, header and book are taken.
    pub fn read(run: &[u8]) -> Option<Parts> {
        let played = play_run(run).ok()?;
        let book_length = usize::from(u16::from_le_bytes([*run.get(4)?, *run.get(5)?]));
        let (mut rest, after) = run.get(6..)?.split_at_checked(book_length)?;
        let mut book = Vec::new();
        while let Some(kind) = rest.first() {
            let (command, further) = rest.split_at_checked(command_bytes(*kind))?;
            book.push(command.to_vec());
            rest = further;
        }
        let steps_length: usize = played.steps.iter().map(|step| step.bytes().len()).sum();
        let tail = after.get(steps_length..)?.to_vec();
        Some(Parts { header: run.get(..4)?.to_vec(), book, steps: played.steps, tail })
    }

    pub fn bytes(&self) -> Vec<u8> {
        let book = self.book.concat();
        let mut bytes = self.header.clone();
        bytes.extend((book.len() as u16).to_le_bytes());
        bytes.extend(book);
        bytes.extend(self.steps.iter().flat_map(Step::bytes));
        bytes.extend(&self.tail);
        bytes
    }

    /// The same run without this command: steps that bring it are dropped, later commands move down.
    pub fn without_command(&self, dropped: usize) -> Parts {
        let mut parts = self.clone();
        if dropped < parts.book.len() {
            parts.book.remove(dropped);
        }
        parts.steps = self.steps.iter().filter_map(|step| step_without(step, dropped)).collect();
        parts
    }
}

impl Parts {
    /// The same run without this site: steps about it are dropped, later sites move down.
    pub fn without_site(&self, dropped: usize) -> Option<Parts> {
        let [sites, faults, low, high] = *self.header.first_chunk::<4>()?;
        let sites = sites.checked_sub(1).filter(|sites| *sites > 0)?;
        let mask = usize::from(u16::from_le_bytes([low, high]));
        let kept_low = mask & ((1 << dropped) - 1);
        let [low, high] = ((kept_low | (mask >> (dropped + 1)) << dropped) as u16).to_le_bytes();
        let header = vec![sites, faults.min((sites - 1) / 5), low, high];
        let steps = self.steps.iter().filter_map(|step| step_without_site(step, dropped)).collect();
        Some(Parts { header, steps, ..self.clone() })
    }
}

/// The step after a site has left the table; none where it is about that site.
fn step_without_site(step: &Step, dropped: usize) -> Option<Step> {
    let mut step = step.clone();
    let named = match &mut step {
        Step::Acknowledgment { to, from, .. }
        | Step::Check { to, from, .. }
        | Step::FaultyAcknowledgment { to, from, .. }
        | Step::FaultyCheck { to, from, .. } => vec![to, from],
        Step::Command { to: site, .. }
        | Step::FaultyEntry { from: site, .. }
        | Step::Turn { site }
        | Step::FastDelivery { site, .. }
        | Step::LogRead { site }
        | Step::RoundEnd { site } => vec![site],
    };
    for site in named {
        if *site == dropped {
            return None;
        }
        *site = number_without(*site, dropped);
    }
    Some(step)
}

fn number_without(number: usize, dropped: usize) -> usize {
    if number > dropped {
        number - 1
    } else {
        number
    }
}

fn set_without(set: &Set, dropped: usize) -> Set {
    set.iter().filter(|m| **m != dropped).map(|m| number_without(*m, dropped)).collect()
}

/// The step after a command has left the book; none where it is about that command alone.
fn step_without(step: &Step, dropped: usize) -> Option<Step> {
    let mut step = step.clone();
    match &mut step {
        Step::Command { command, .. } | Step::FastDelivery { command, .. } => {
            if *command == dropped {
                return None;
            }
            *command = number_without(*command, dropped);
        }
        Step::FaultyAcknowledgment { set, .. } | Step::FaultyCheck { set, .. } => {
            *set = set_without(set, dropped);
        }
        Step::FaultyEntry { nc, c, .. } => {
            *nc = set_without(nc, dropped);
            *c = set_without(c, dropped);
        }
        _ => {}
    }
    Some(step)
}
