//! One lent site in any state with any log: no call panics, a refused one changes nothing, each refusal is met.

use compare::books;
use compare::draw::Draw;
use compare::lent_draw::{around, log, message, site};
use compare::settings::{number, say};
use reference::{lent, play_run, Rules, Site};
use std::collections::BTreeMap;

/// One call of any kind; the refusal, if it is refused.
fn call(draw: &mut Draw, site: &mut Site, rules: &Rules, log: &[u8]) -> Result<(), u32> {
    let sites = rules.table.sites();
    let command = around(draw, 0, rules.book.count().saturating_sub(1));
    match draw.below(8) {
        0 => lent::receive_command(site, rules, command),
        1 | 2 => {
            let (sender, mut message) = (around(draw, 0, sites - 1), message(draw, rules, site));
            message.truncate(around(draw, message.len(), message.len()));
            lent::receive(site, rules, sender, &message)
        }
        3 | 4 => lent::turn(site, rules, around(draw, 0, sites - 1), log).map(|_| ()),
        5 => lent::fast_delivery(site, rules, command),
        6 => lent::log_read(site, rules, log),
        _ => lent::round_end(site, rules, log),
    }
}

#[test]
fn lent_sites() {
    let (calls, seed) = (number("BEURILMA_LENT_CALLS", 50_000), number("BEURILMA_SEED", 1));
    let mut verdicts: BTreeMap<u32, usize> = BTreeMap::new();
    for place in 0..calls {
        let mut draw = Draw::new(seed ^ 0x1E47, place);
        let rules = play_run(&books::opening(&mut draw).bytes()).expect("an opening is taken").world.rules;
        let log = log(&mut draw, &rules);
        let mut site = site(&mut draw, &rules, log.len() / 18);
        let before = site.clone();
        let verdict = call(&mut draw, &mut site, &rules, &log);
        if verdict.is_err() {
            assert!(before == site, "call {place} of seed {seed} was refused and changed something");
        } else {
            assert_eq!(lent::check_site(&site, &rules), Ok(()), "call {place} of seed {seed} left a bad site");
        }
        *verdicts.entry(verdict.err().unwrap_or(0)).or_default() += 1;
    }
    say(&format!("{calls} calls on lent sites from BEURILMA_SEED={seed}, by refusal: {verdicts:?}"));
    let missing: Vec<u32> = [0, 3, 4, 6, 7, 8, 9].into_iter().filter(|each| !verdicts.contains_key(each)).collect();
    assert!(calls < 50_000 || missing.is_empty(), "never met: {missing:?}");
}
