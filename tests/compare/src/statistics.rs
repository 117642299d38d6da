//! What the runs of a comparison have reached.

use reference::{decide, Played, Step};
use std::collections::BTreeMap;
use std::fmt;

#[derive(Default)]
pub struct Statistics {
    pub runs: usize,
    pub bytes: usize,
    pub steps: usize,
    /// How often each number refused a run or a step.
    pub refusals: BTreeMap<u32, usize>,
    pub highest_round: usize,
    /// Runs in which a correct site is in round 10 or later.
    pub long_runs: usize,
    /// Runs in which a correct site is in round 33.
    pub last_round_runs: usize,
    pub fast_deliveries: usize,
    pub round_ends: usize,
    pub decided_rounds: usize,
    /// Decided rounds with a source struck out for a second entry, and for a conflict in NC.
    pub excluded_by_second_entry: usize,
    pub excluded_by_conflict: usize,
}

impl Statistics {
    /// Adds a run and what it came to.
    pub fn add(&mut self, run: &[u8], played: &Result<Played, u32>) {
        self.runs += 1;
        self.bytes += run.len();
        match played {
            Ok(played) => self.add_played(played),
            Err(number) => self.add_refusal(*number),
        }
    }

    fn add_refusal(&mut self, number: u32) {
        *self.refusals.entry(number).or_default() += 1;
    }

    fn add_played(&mut self, played: &Played) {
        self.steps += played.steps.len();
        for (step, verdict) in played.steps.iter().zip(&played.verdicts) {
            match (step, verdict) {
                (_, Err(number)) => self.add_refusal(*number),
                (Step::FastDelivery { .. }, Ok(())) => self.fast_deliveries += 1,
                (Step::RoundEnd { .. }, Ok(())) => self.round_ends += 1,
                _ => {}
            }
        }
        if played.is_cut {
            self.add_refusal(3);
        }
        let highest = played.world.sites.iter().map(|site| site.round).max().unwrap_or(1);
        self.highest_round = self.highest_round.max(highest);
        self.long_runs += usize::from(highest >= 10);
        self.last_round_runs += usize::from(highest >= 33);
        self.add_decisions(played, highest);
    }

    /// Counts the decided rounds that a correct site has ended.
    fn add_decisions(&mut self, played: &Played, highest: usize) {
        let world = &played.world;
        for round in 1..highest {
            let Some(decision) = decide(round, &world.log, &world.rules) else { continue };
            self.decided_rounds += 1;
            let seen = &world.log[..=decision.place];
            let entries = |source: &usize| seen.iter().filter(|e| e.round == round && e.site == *source).count();
            let has_second = decision.excluded.iter().any(|source| entries(source) > 1);
            let has_conflict = decision.excluded.iter().any(|source| entries(source) == 1);
            self.excluded_by_second_entry += usize::from(has_second);
            self.excluded_by_conflict += usize::from(has_conflict);
        }
    }

    /// Kinds that no run has reached, and refusal 8, which no run may meet.
    pub fn missing(&self) -> Vec<String> {
        let mut missing = Vec::new();
        for number in (1..=9).filter(|number| *number != 8) {
            if !self.refusals.contains_key(&number) {
                missing.push(format!("refusal {number} was never met"));
            }
        }
        if self.refusals.contains_key(&8) {
            missing.push(String::from("refusal 8 was met by a run"));
        }
        let reached = [
            (self.highest_round >= 33, "round 33"),
            (self.long_runs > 0, "ten rounds"),
            (self.fast_deliveries > 0, "a fast delivery"),
            (self.excluded_by_second_entry > 0, "a source struck out for a second entry"),
            (self.excluded_by_conflict > 0, "a source struck out for a conflict"),
        ];
        let unreached = reached.iter().filter(|(is_reached, _)| !is_reached);
        missing.extend(unreached.map(|(_, kind)| format!("{kind} was never reached")));
        missing
    }
}

impl fmt::Display for Statistics {
    fn fmt(&self, out: &mut fmt::Formatter) -> fmt::Result {
        writeln!(out, "{} runs, {} steps, {} bytes", self.runs, self.steps, self.bytes)?;
        let refusals: Vec<String> = self.refusals.iter().map(|(number, count)| format!("{number}: {count}")).collect();
        writeln!(out, "refusals {}", refusals.join(", "))?;
        writeln!(out, "highest round {}, in {} runs round 33", self.highest_round, self.last_round_runs)?;
        writeln!(out, "runs with round 10 or later: {}", self.long_runs)?;
        writeln!(out, "fast deliveries {}, round ends {}", self.fast_deliveries, self.round_ends)?;
        let (second, conflict) = (self.excluded_by_second_entry, self.excluded_by_conflict);
        write!(out, "decided rounds {}, with a source struck out for a second entry {second}, ", self.decided_rounds)?;
        write!(out, "for a conflict {conflict}")
    }
}
