//! The print of a run as ASCII lines (document 01, "A run and its print").

use crate::refusal::{self, Refusal};
use crate::run::Played;
use crate::site::Site;

/// A refused size, header or book prints this line only.
pub fn print_refused(number: Refusal) -> Vec<u8> {
    format!("refused {number}\n").into_bytes()
}

/// The whole print of a run whose header and book were taken.
pub fn print(played: &Played) -> Vec<u8> {
    let world = &played.world;
    let (sites, faulty, commands) = (world.sites.len(), world.faulty.len(), world.rules.book.count());
    let mut text = format!("run {sites} sites {faulty} liars {commands} commands\n");
    for (place, verdict) in played.verdicts.iter().enumerate() {
        if let Err(number) = verdict {
            text += &format!("step {} refused {number}\n", place + 1);
        }
    }
    if played.is_cut {
        text += &format!("step {} refused {}\n", played.verdicts.len() + 1, refusal::FORM);
    }
    for number in world.correct() {
        if let Some(site) = world.sites.get(number) {
            text += &site_line(number, site);
        }
    }
    text.into_bytes()
}

/// A correct site's number, round and deliveries.
fn site_line(number: usize, site: &Site) -> String {
    let mut line = format!("site {number:02} round {:02} delivered", site.round);
    for delivery in &site.deliveries {
        line += &format!(" {:02}={}", delivery.command, delivery.answer);
    }
    line + "\n"
}
