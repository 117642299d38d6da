//! Many calls on random lent sites in one engine, each compared with what is expected.

use crate::draw::Draw;
use crate::expected::{Outcome, PROPOSES};
use crate::lent_calls::{Call, Engine};
use crate::lent_check::{check, Met};
use crate::lent_damage::damage;
use crate::lent_draw::{call, scene, Scene};
use reference::{refusal, Site};

/// Makes so many calls; the first that differs, with seed and place, if one does.
pub fn play(engine: &mut dyn Engine, calls: u64, seed: u64, met: &mut Met) -> Result<(), String> {
    let (mut made, mut place) = (0, 0);
    while made < calls {
        let mut draw = Draw::new(seed ^ 0xE461, place);
        let mut scene = scene(&mut draw);
        for each in 0..draw.within(4, 16) {
            if made == calls {
                break;
            }
            play_call(engine, &mut draw, &mut scene, met)
                .map_err(|difference| format!("call {each} of scene {place} of seed {seed}: {difference}"))?;
            made += 1;
        }
        place += 1;
    }
    Ok(())
}

/// One call; where nothing lent was damaged, the scene goes on with the later site.
fn play_call(engine: &mut dyn Engine, draw: &mut Draw, scene: &mut Scene, met: &mut Met) -> Result<(), String> {
    let call = call(draw, scene);
    let mut lent = scene.lent(draw, &call);
    let damages = draw.pick(&[0, 0, 0, 0, 0, 0, 1, 1, 1, 2, 3]);
    for _ in 0..damages {
        damage(draw, &call, &mut lent);
    }
    let outcome = check(engine, &call, &lent)?;
    met.add(&call, &outcome);
    if damages == 0 {
        go_on(draw, scene, &call, outcome);
    }
    Ok(())
}

fn go_on(draw: &mut Draw, scene: &mut Scene, call: &Call, outcome: Outcome) {
    // A site that was drawn out of range is refused by every call: a few of them are enough.
    if outcome.answer == refusal::RANGE && draw.percent(30) {
        scene.site = Site::start();
    }
    if outcome.cause == PROPOSES && draw.percent(80) {
        scene.log.extend(&outcome.outputs.entry);
    }
    if *call == Call::Fresh && draw.percent(80) {
        return;
    }
    if let Some((site, _)) = outcome.site {
        scene.site = site;
    }
}
