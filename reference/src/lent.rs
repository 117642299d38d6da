//! One site lent by a host, with site table, message and log as bytes: the steps of `site`, after all lent is judged.
//!
//! A number out of range, a set beyond the book, or an entry before the log position that a log read would
//! refuse is 4; a log that ends in a cut entry and a message of another form are 3, before that. Any other site is
//! stepped as it is.

use crate::book::MOST_READING;
use crate::log::{judge, read_log, Entry};
use crate::message::Message;
use crate::refusal::{self, Refusal};
use crate::site::{is_round, Phase, Rules, Site};
use crate::{Book, SiteTable};

/// The site table and the book that are lent, or the refusal of one of them: 2 comes before 1.
pub fn rules(table: &[u8], book: &[u8]) -> Result<Rules, Refusal> {
    let table = SiteTable::read(table)?;
    Ok(Rules { table, book: Book::read(book)? })
}

/// Whether every number of a lent site is in range and every set within the book.
pub fn check_site(site: &Site, rules: &Rules) -> Result<(), Refusal> {
    let book = &rules.book;
    let sets = [&site.received, &site.g_del, &site.pending, &site.g_ack_del];
    let sets_fit = sets.iter().all(|set| book.holds(set));
    let proposal_fits = match &site.phase {
        Phase::Acknowledging => true,
        Phase::Waiting(proposal) => book.holds(&proposal.nc) && book.holds(&proposal.c),
    };
    let heard_fits = site
        .heard
        .iter()
        .all(|((round, sender), set)| is_round(*round) && *sender < rules.table.sites() && book.holds(set));
    let readings_fit = site.register.readings.iter().all(|reading| *reading <= MOST_READING);
    let deliveries_fit =
        site.deliveries.len() <= book.count() && site.deliveries.iter().all(|delivery| delivery.command < book.count());
    let fits = is_round(site.round) && sets_fit && proposal_fits && heard_fits && readings_fit;
    if fits && deliveries_fit {
        Ok(())
    } else {
        Err(refusal::RANGE)
    }
}

/// Whether the lent site has read only entries that are there and that a log read takes.
pub fn check_entries_read(site: &Site, rules: &Rules, log: &[Entry]) -> Result<(), Refusal> {
    let read = log.get(..site.log_position).ok_or(refusal::RANGE)?;
    for (place, entry) in read.iter().enumerate() {
        judge(entry, &read[..place], rules).map_err(|_| refusal::RANGE)?;
    }
    Ok(())
}

/// The lent log's entries, once log and site are judged.
fn check(site: &Site, rules: &Rules, log: &[u8]) -> Result<Vec<Entry>, Refusal> {
    let entries = read_log(log)?;
    check_site(site, rules)?;
    check_entries_read(site, rules, &entries)?;
    Ok(entries)
}

pub fn receive_command(site: &mut Site, rules: &Rules, command: usize) -> Result<(), Refusal> {
    check_site(site, rules)?;
    site.receive_command(rules, command)
}

/// A message as its bytes; the host vouches for the sender.
pub fn receive(site: &mut Site, rules: &Rules, sender: usize, message: &[u8]) -> Result<(), Refusal> {
    let message = Message::read(message)?;
    check_site(site, rules)?;
    site.receive(rules, sender, &message)
}

/// What a turn hands to the host: the bytes of a message to all sites, and those of an entry for the log where the
/// site proposes.
#[derive(Clone, Debug, PartialEq, Eq)]
pub struct Turn {
    pub message: Vec<u8>,
    pub entry: Option<Vec<u8>>,
}

/// A turn of site `own`.
pub fn turn(site: &mut Site, rules: &Rules, own: usize, log: &[u8]) -> Result<Turn, Refusal> {
    let mut entries = check(site, rules, log)?;
    let before = entries.len();
    let message = site.turn(rules, own, &mut entries)?.bytes();
    Ok(Turn { message, entry: entries.get(before).map(Entry::bytes) })
}

pub fn fast_delivery(site: &mut Site, rules: &Rules, command: usize) -> Result<(), Refusal> {
    check_site(site, rules)?;
    site.fast_delivery(rules, command)
}

pub fn log_read(site: &mut Site, rules: &Rules, log: &[u8]) -> Result<(), Refusal> {
    let entries = check(site, rules, log)?;
    site.log_read(rules, &entries)
}

pub fn round_end(site: &mut Site, rules: &Rules, log: &[u8]) -> Result<(), Refusal> {
    let entries = check(site, rules, log)?;
    site.round_end(rules, &entries)
}
