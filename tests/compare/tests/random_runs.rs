//! Many random runs: demand 3 on every play of the reference, and the same print and the same sites in the proved
//! program.

use compare::generator;
#[cfg(feature = "archive")]
use compare::program::{compare, Reference};
use compare::settings::{hexadecimal, number, say};
use compare::shrink::shrink;
use compare::statistics::Statistics;
use reference::{common_sequence, play_run, Played};
use std::time::Instant;

/// Below so many runs a kind may be missing by chance.
const ENOUGH_RUNS: u64 = 5_000;

/// How a play goes against demand 3, if it does.
fn violation(played: &Result<Played, u32>) -> Option<String> {
    let played = played.as_ref().ok()?;
    common_sequence(&played.steps, &played.verdicts, &played.world).err()
}

#[test]
fn random_runs() {
    let (runs, seed) = (number("BEURILMA_RUNS", 20_000), number("BEURILMA_SEED", 1));
    say(&format!("{runs} random runs from BEURILMA_SEED={seed}"));
    let start = Instant::now();
    let mut statistics = Statistics::default();
    #[cfg(feature = "archive")]
    let mut proved = compare::proved::Proved::new();
    for place in 0..runs {
        let run = generator::run(seed, place);
        let played = play_run(&run);
        statistics.add(&run, &played);
        if violation(&played).is_some() {
            let small = shrink(&run, &mut |run| violation(&play_run(run)).is_some());
            let what = violation(&play_run(&small)).unwrap_or_default();
            panic!("run {place} of seed {seed}: {what}\n{}", hexadecimal(&small));
        }
        #[cfg(feature = "archive")]
        if let Some(difference) = compare(&run, &mut Reference, &mut proved) {
            panic!("run {place} of seed {seed}: {difference}");
        }
        #[cfg(feature = "archive")]
        if let Some(site) = played.as_ref().ok().and_then(|played| proved.other_site(&played.world)) {
            panic!("run {place} of seed {seed} leaves other bytes of site {site}");
        }
    }
    say(&format!("{statistics}\n{:.1} seconds", start.elapsed().as_secs_f64()));
    let missing = statistics.missing();
    assert!(runs < ENOUGH_RUNS || missing.is_empty(), "{}", missing.join("; "));
}
