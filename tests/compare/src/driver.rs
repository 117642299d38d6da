//! A run that is written while the reference's world takes its steps, so that messages arrive and rounds end.

use crate::books::Opening;
use crate::draw::Draw;
use crate::noise;
use reference::{play_run, Phase, Set, Step, World, MOST_BYTES};
use std::collections::BTreeSet;

/// How busy the network, the sites and the faulty sites are: percentages.
#[derive(Clone, Copy, Debug)]
pub struct Manner {
    pub acknowledgments: usize,
    pub checks: usize,
    pub turns: usize,
    pub fast: usize,
    pub reads: usize,
    pub ends: usize,
    pub faulty: usize,
    pub noise: usize,
    /// Faulty sites name any commands of the book, not only those that a correct site has received.
    pub is_wild: bool,
    /// Each message reaches a site at most once.
    pub is_once: bool,
}

impl Manner {
    /// Everything arrives and every enabled step is taken.
    pub fn prompt() -> Manner {
        let (acknowledgments, checks, turns, fast, reads, ends) = (100, 100, 100, 100, 100, 100);
        let (faulty, noise, is_wild, is_once) = (30, 0, false, false);
        Manner { acknowledgments, checks, turns, fast, reads, ends, faulty, noise, is_wild, is_once }
    }

    /// Anything from idle to prompt.
    pub fn any(draw: &mut Draw) -> Manner {
        Manner {
            acknowledgments: draw.pick(&[0, 30, 60, 90, 100]),
            checks: draw.pick(&[20, 50, 80, 100]),
            turns: draw.pick(&[50, 80, 100]),
            fast: draw.pick(&[0, 50, 100]),
            reads: draw.pick(&[30, 80, 95, 100]),
            ends: draw.pick(&[50, 90, 100]),
            faulty: draw.pick(&[0, 20, 50, 90]),
            noise: draw.pick(&[0, 0, 3, 10]),
            is_wild: draw.percent(40),
            is_once: draw.percent(50),
        }
    }
}

/// How often a step is tried that is not enabled.
const VAIN_PERCENT: usize = 5;

pub struct Driver<'a> {
    pub draw: &'a mut Draw,
    pub world: World,
    pub bytes: Vec<u8>,
    correct: Vec<usize>,
    faulty: Vec<usize>,
    most_bytes: usize,
    /// The bytes of the messages brought so far.
    brought: BTreeSet<Vec<u8>>,
}

impl<'a> Driver<'a> {
    /// The start of a run that grows to so many bytes at most.
    pub fn new(draw: &'a mut Draw, opening: &Opening, most_bytes: usize) -> Driver<'a> {
        let bytes = opening.bytes();
        let world = play_run(&bytes).expect("an opening is taken").world;
        let correct = world.correct();
        let faulty = world.faulty.iter().copied().collect();
        let most_bytes = most_bytes.min(MOST_BYTES);
        Driver { draw, world, bytes, correct, faulty, most_bytes, brought: BTreeSet::new() }
    }

    pub fn is_full(&self) -> bool {
        self.bytes.len() + 19 > self.most_bytes
    }

    pub fn take(&mut self, step: Step) {
        if !self.is_full() {
            self.bytes.extend(step.bytes());
            // Refused steps belong into runs as well.
            let _ = self.world.step(&step);
        }
    }

    /// Brings a message, unless it has come before and messages come once.
    fn bring(&mut self, manner: &Manner, message: Step) {
        let is_new = self.brought.insert(message.bytes());
        if is_new || !manner.is_once {
            self.take(message);
        }
    }

    /// Brings a command to some of the correct sites, at least one.
    pub fn feed(&mut self, command: usize, percent: usize) {
        let sure = self.draw.pick(&self.correct);
        for to in self.correct.clone() {
            if to == sure || self.draw.percent(percent) {
                self.take(Step::Command { to, command });
            }
        }
    }

    /// What correct sites have received and not all of them have delivered in a round.
    pub fn live(&self) -> Set {
        self.correct.iter().flat_map(|site| self.world.sites[*site].open()).collect()
    }

    /// Commands that no correct site has received yet.
    pub fn unknown(&self) -> Vec<usize> {
        let is_known = |m: &usize| self.correct.iter().any(|site| self.world.sites[*site].received.contains(m));
        (0..self.world.rules.book.count()).filter(|m| !is_known(m)).collect()
    }

    pub fn highest_round(&self) -> usize {
        self.correct.iter().map(|site| self.world.sites[*site].round).max().unwrap_or(1)
    }

    pub fn turns(&mut self, manner: &Manner) {
        for site in self.correct.clone() {
            let percent = if self.world.sites[site].is_turn_enabled() { manner.turns } else { VAIN_PERCENT };
            if self.draw.percent(percent) {
                self.take(Step::Turn { site });
            }
        }
    }

    /// Brings acknowledgments of the senders' present round, now and then of an earlier one.
    pub fn spread_acknowledgments(&mut self, manner: &Manner) {
        for from in self.correct.clone() {
            let present = self.world.sites[from].round;
            let round = if self.draw.percent(8) { self.draw.within(1, present) } else { present };
            let sent = self.world.acknowledgments.get(&(from, round)).map_or(0, Vec::len);
            for to in self.correct.clone() {
                if sent > 0 && self.draw.percent(manner.acknowledgments) {
                    let a = if self.draw.percent(80) { sent } else { self.draw.within(1, sent) };
                    self.bring(manner, Step::Acknowledgment { to, from, round, a });
                }
            }
        }
    }

    pub fn spread_checks(&mut self, manner: &Manner) {
        for from in self.correct.clone() {
            let round = self.world.sites[from].round;
            for to in self.correct.clone() {
                if self.world.checks.contains_key(&(from, round)) && self.draw.percent(manner.checks) {
                    self.bring(manner, Step::Check { to, from, round });
                }
            }
        }
    }

    pub fn fast_deliveries(&mut self, manner: &Manner) {
        for site in self.correct.clone() {
            for command in self.world.sites[site].received.clone() {
                let is_enabled = self.world.sites[site].is_fast_delivery_enabled(&self.world.rules, command);
                let percent = match is_enabled {
                    true => manner.fast,
                    false if self.is_nearly_acknowledged(site, command) => 30,
                    false => 0,
                };
                if self.draw.percent(percent) {
                    self.take(Step::FastDelivery { site, command });
                }
            }
        }
    }

    /// At most one sender is missing for a fast delivery, whatever else may be.
    fn is_nearly_acknowledged(&self, site: usize, command: usize) -> bool {
        let site = &self.world.sites[site];
        let heard = site.heard.iter().filter(|((round, _), set)| *round == site.round && set.contains(&command));
        heard.count() + 1 >= self.world.rules.table.n_ack()
    }

    pub fn reads(&mut self, manner: &Manner) {
        for site in self.correct.clone() {
            let left = self.world.log.len() - self.world.sites[site].log_position;
            for _ in 0..left {
                if self.draw.percent(manner.reads) {
                    self.take(Step::LogRead { site });
                }
            }
        }
    }

    pub fn ends(&mut self, manner: &Manner) {
        for site in self.correct.clone() {
            let is_waiting = self.world.sites[site].phase != Phase::Acknowledging;
            if is_waiting && self.draw.percent(manner.ends) {
                let is_enabled = self.world.sites[site].decision(&self.world.rules, &self.world.log).is_some();
                if is_enabled || self.draw.percent(VAIN_PERCENT) {
                    self.take(Step::RoundEnd { site });
                }
            }
        }
    }

    /// A set a faulty site names: all, some, or a part without conflicts of what is live or of the whole book.
    fn faulty_set(&mut self, manner: &Manner) -> Set {
        if manner.is_wild && self.draw.percent(40) {
            return noise::set(self.draw, &self.world);
        }
        let mut order: Vec<usize> = self.live().into_iter().collect();
        self.draw.shuffle(&mut order);
        let mut set = Set::new();
        let (is_free, density) = (self.draw.percent(60), self.draw.pick(&[0, 50, 100, 100]));
        for command in order {
            let conflicts = set.iter().any(|other| self.world.rules.book.conflict(command, *other));
            if !(is_free && conflicts) && self.draw.percent(density) {
                set.insert(command);
            }
        }
        set
    }

    /// Mostly the given round, or one before or after it.
    fn faulty_round(&mut self, round: usize, most: usize) -> usize {
        let shift = self.draw.pick(&[0, 0, 0, 0, 0, 0, 1, 1, 2]);
        let round = if self.draw.percent(20) { round.saturating_sub(shift) } else { round + shift };
        round.clamp(1, most)
    }

    /// Different acknowledgments and check messages to different receivers.
    fn equivocate_messages(&mut self, manner: &Manner) {
        for from in self.faulty.clone() {
            for to in self.correct.clone() {
                if !self.draw.percent(manner.faulty) {
                    continue;
                }
                let (set, round) = (self.faulty_set(manner), self.world.sites[to].round);
                let round = self.faulty_round(round, 33);
                let step = if self.draw.percent(75) {
                    Step::FaultyAcknowledgment { to, from, round, set }
                } else {
                    Step::FaultyCheck { to, from, round, set }
                };
                self.take(step);
            }
        }
    }

    /// One entry, at times two or three, with or without conflicts in NC.
    fn equivocate_entries(&mut self, manner: &Manner) {
        for from in self.faulty.clone() {
            if !self.draw.percent(manner.faulty) {
                continue;
            }
            for _ in 0..self.draw.pick(&[1, 1, 1, 2, 2, 3]) {
                let (nc, c) = (self.faulty_set(manner), self.faulty_set(manner));
                let highest = self.highest_round();
                let round = self.faulty_round(highest, 32);
                self.take(Step::FaultyEntry { from, round, nc, c });
            }
        }
    }

    fn noise(&mut self, manner: &Manner) {
        while self.draw.percent(manner.noise) {
            let step = noise::step(self.draw, &self.world);
            self.take(step);
        }
    }

    /// Every kind of move once, in the protocol's order or in any.
    pub fn beat(&mut self, manner: &Manner, is_shuffled: bool) {
        let mut moves = [0, 1, 2, 3, 0, 4, 5, 0, 6, 7, 8];
        if is_shuffled {
            self.draw.shuffle(&mut moves);
        }
        for each in moves {
            match each {
                0 => self.turns(manner),
                1 => self.spread_acknowledgments(manner),
                2 => self.equivocate_messages(manner),
                3 => self.fast_deliveries(manner),
                4 => self.spread_checks(manner),
                5 => self.equivocate_entries(manner),
                6 => self.reads(manner),
                7 => self.ends(manner),
                _ => self.noise(manner),
            }
        }
    }
}
