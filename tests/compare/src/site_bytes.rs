//! A site of the reference as the bytes of it that a host lends, and back (docs/FORMAT.md, "Site").
//!
//! A site has rows of sets heard up to its span. Of the 3,536 bytes lent, those past these rows are not part of it.

use reference::book::{BIKES, MOST_COMMANDS, MOST_READING};
use reference::site::{is_round, MOST_ROUND};
use reference::{bytes_of_set, set_of_bytes, Delivery, Phase, Proposal, Register, Rules, Set, Site, SiteTable};
use std::collections::BTreeMap;

pub const SITE_BYTES: usize = 3536;
const SET: usize = 8;
/// What all senders acknowledged in a round, one after another.
const ROW: usize = SET * SiteTable::MOST_SITES;
const DELIVERY: usize = 5;

/// Where each part of a site begins.
const LOG_POSITION: usize = 2;
const RECORDED_COUNT: usize = 4;
pub const SPAN: usize = 6;
const RECEIVED: usize = 8;
const DELIVERED: usize = 16;
const PENDING: usize = 24;
const DELIVERED_FAST: usize = 32;
const PROPOSED_NC: usize = 40;
const PROPOSED_C: usize = 48;
const REGISTER: usize = 56;
const DELIVERIES: usize = REGISTER + 8 * BIKES;
pub const HEARD: usize = DELIVERIES + DELIVERY * MOST_COMMANDS;

/// Why bytes are not a site: each is refused as 4.
pub const ROUND: &str = "a round out of range";
pub const PHASE: &str = "a phase that is neither 0 nor 1";
pub const SPAN_BEYOND: &str = "a span out of range";
pub const SET_BEYOND: &str = "a set beyond the book";
pub const PROPOSED: &str = "proposed sets while acknowledging";
pub const SENDER_BEYOND: &str = "something heard of a sender beyond the table";
pub const READING: &str = "a reading out of range";
pub const RECORDED: &str = "more deliveries than commands";
pub const COMMAND_BEYOND: &str = "a delivered command beyond the book";
pub const UNRECORDED: &str = "an unrecorded delivery that is not 0";
pub const REASONS: [&str; 10] =
    [ROUND, PHASE, SPAN_BEYOND, SET_BEYOND, PROPOSED, SENDER_BEYOND, READING, RECORDED, COMMAND_BEYOND, UNRECORDED];

fn put(bytes: &mut [u8], at: usize, part: &[u8]) {
    bytes[at..at + part.len()].copy_from_slice(part);
}

/// The 8 bytes of a set; none where it holds a number that has no bit.
fn set_bytes(set: &Set) -> Option<[u8; SET]> {
    set.iter().all(|command| *command < MOST_COMMANDS).then(|| bytes_of_set(set))
}

/// Where the rows of so many rounds end.
pub fn rows_end(span: usize) -> usize {
    HEARD + ROW * span
}

fn heard_at(sender: usize, round: usize) -> usize {
    rows_end(round - 1) + SET * sender
}

/// The last round in which the site heard something, 0 where it has not: its rows must reach so far.
pub fn least_span(site: &Site) -> usize {
    let heard = site.heard.iter().filter(|(_, set)| !set.is_empty());
    heard.map(|((round, _), _)| *round).max().unwrap_or(0)
}

/// The bytes of a site, in range or not, with rows up to its span, at least the least one; none where a number is
/// too great for its bytes.
pub fn encode(site: &Site, span: usize) -> Option<Vec<u8>> {
    let mut bytes = vec![0; rows_end(span)];
    bytes[0] = u8::try_from(site.round).ok()?;
    put(&mut bytes, LOG_POSITION, &u16::try_from(site.log_position).ok()?.to_le_bytes());
    put(&mut bytes, RECORDED_COUNT, &u16::try_from(site.deliveries.len()).ok()?.to_le_bytes());
    put(&mut bytes, SPAN, &u16::try_from(span).ok()?.to_le_bytes());
    put(&mut bytes, RECEIVED, &set_bytes(&site.received)?);
    put(&mut bytes, DELIVERED, &set_bytes(&site.g_del)?);
    put(&mut bytes, PENDING, &set_bytes(&site.pending)?);
    put(&mut bytes, DELIVERED_FAST, &set_bytes(&site.g_ack_del)?);
    if let Phase::Waiting(proposal) = &site.phase {
        bytes[1] = 1;
        put(&mut bytes, PROPOSED_NC, &set_bytes(&proposal.nc)?);
        put(&mut bytes, PROPOSED_C, &set_bytes(&proposal.c)?);
    }
    encode_heard(&site.heard, &mut bytes)?;
    for (bike, (reading, dash)) in site.register.readings.iter().zip(site.register.dashes).enumerate() {
        put(&mut bytes, REGISTER + 8 * bike, &reading.to_le_bytes());
        put(&mut bytes, REGISTER + 8 * bike + 4, &dash.to_le_bytes());
    }
    encode_deliveries(&site.deliveries, &mut bytes)?;
    Some(bytes)
}

fn encode_heard(heard: &BTreeMap<(usize, usize), Set>, bytes: &mut [u8]) -> Option<()> {
    for ((round, sender), set) in heard {
        if !is_round(*round) || *sender >= SiteTable::MOST_SITES {
            return None;
        }
        if !set.is_empty() {
            put(bytes, heard_at(*sender, *round), &set_bytes(set)?);
        }
    }
    Some(())
}

fn encode_deliveries(deliveries: &[Delivery], bytes: &mut [u8]) -> Option<()> {
    if deliveries.len() > MOST_COMMANDS {
        return None;
    }
    for (place, delivery) in deliveries.iter().enumerate() {
        bytes[DELIVERIES + DELIVERY * place] = u8::try_from(delivery.command).ok()?;
        put(bytes, DELIVERIES + DELIVERY * place + 1, &delivery.answer.to_le_bytes());
    }
    Some(())
}

/// So many bytes from a place on; the caller has seen to the length of the whole.
fn part<const N: usize>(bytes: &[u8], at: usize) -> [u8; N] {
    *bytes[at..].first_chunk().expect("the bytes have the size of a site")
}

fn unless(holds: bool, reason: &'static str) -> Result<(), &'static str> {
    if holds {
        Ok(())
    } else {
        Err(reason)
    }
}

/// A set within the book.
fn read_set(bytes: &[u8], at: usize, rules: &Rules) -> Result<Set, &'static str> {
    let set = set_of_bytes(part(bytes, at));
    unless(rules.book.holds(&set), SET_BEYOND)?;
    Ok(set)
}

/// For how many rounds there are rows of sets heard.
pub fn span(bytes: &[u8]) -> usize {
    usize::from(u16::from_le_bytes(part(bytes, SPAN)))
}

/// The site in the first 3,536 bytes; why there is none, where they are not a site for this table and book.
/// The log position is read and not judged, since no log is at hand. What was heard keeps no empty sets.
pub fn decode(bytes: &[u8], rules: &Rules) -> Result<Site, &'static str> {
    let round = usize::from(bytes[0]);
    unless(is_round(round), ROUND)?;
    Ok(Site {
        round,
        phase: decode_phase(bytes, rules)?,
        log_position: usize::from(u16::from_le_bytes(part(bytes, LOG_POSITION))),
        received: read_set(bytes, RECEIVED, rules)?,
        g_del: read_set(bytes, DELIVERED, rules)?,
        pending: read_set(bytes, PENDING, rules)?,
        g_ack_del: read_set(bytes, DELIVERED_FAST, rules)?,
        heard: decode_heard(bytes, rules)?,
        register: decode_register(bytes)?,
        deliveries: decode_deliveries(bytes, rules)?,
    })
}

fn decode_phase(bytes: &[u8], rules: &Rules) -> Result<Phase, &'static str> {
    match bytes[1] {
        0 => {
            unless(bytes[PROPOSED_NC..REGISTER].iter().all(|byte| *byte == 0), PROPOSED)?;
            Ok(Phase::Acknowledging)
        }
        1 => {
            let (nc, c) = (read_set(bytes, PROPOSED_NC, rules)?, read_set(bytes, PROPOSED_C, rules)?);
            Ok(Phase::Waiting(Proposal { nc, c }))
        }
        _ => Err(PHASE),
    }
}

fn decode_heard(bytes: &[u8], rules: &Rules) -> Result<BTreeMap<(usize, usize), Set>, &'static str> {
    unless(span(bytes) <= MOST_ROUND, SPAN_BEYOND)?;
    let mut heard = BTreeMap::new();
    for round in 1..=span(bytes) {
        for sender in 0..SiteTable::MOST_SITES {
            let at = heard_at(sender, round);
            if part(bytes, at) == [0; SET] {
                continue;
            }
            unless(sender < rules.table.sites(), SENDER_BEYOND)?;
            heard.insert((round, sender), read_set(bytes, at, rules)?);
        }
    }
    Ok(heard)
}

fn decode_register(bytes: &[u8]) -> Result<Register, &'static str> {
    let mut register = Register::default();
    for bike in 0..BIKES {
        register.readings[bike] = u32::from_le_bytes(part(bytes, REGISTER + 8 * bike));
        register.dashes[bike] = u32::from_le_bytes(part(bytes, REGISTER + 8 * bike + 4));
        unless(register.readings[bike] <= MOST_READING, READING)?;
    }
    Ok(register)
}

fn decode_deliveries(bytes: &[u8], rules: &Rules) -> Result<Vec<Delivery>, &'static str> {
    let recorded = usize::from(u16::from_le_bytes(part(bytes, RECORDED_COUNT)));
    unless(recorded <= rules.book.count(), RECORDED)?;
    let mut deliveries = Vec::new();
    for place in 0..recorded {
        let [command, answer @ ..] = part::<DELIVERY>(bytes, DELIVERIES + DELIVERY * place);
        unless(usize::from(command) < rules.book.count(), COMMAND_BEYOND)?;
        deliveries.push(Delivery { command: usize::from(command), answer: i32::from_le_bytes(answer) });
    }
    let unrecorded = &bytes[DELIVERIES + DELIVERY * recorded..HEARD];
    unless(unrecorded.iter().all(|byte| *byte == 0), UNRECORDED)?;
    Ok(deliveries)
}

/// The site without the empty sets among what it heard: bytes do not tell an empty set from none.
pub fn without_empty(mut site: Site) -> Site {
    site.heard.retain(|_, set| !set.is_empty());
    site
}

#[cfg(test)]
mod tests {
    use super::*;
    use crate::draw::Draw;
    use crate::lent_draw;

    /// Sites of any fields for random rules.
    fn drawn(place: u64) -> (Site, Rules, Draw) {
        let mut draw = Draw::new(7, place);
        let scene = lent_draw::scene(&mut draw);
        (scene.site, scene.rules, draw)
    }

    #[test]
    fn sites_read_back_as_written() {
        let mut read = 0;
        for place in 0..2_000 {
            let (site, rules, mut draw) = drawn(place);
            let fits = reference::lent::check_site(&site, &rules).is_ok();
            let bytes = lent_draw::bytes(&mut draw, &site, &rules);
            assert_eq!(decode(&bytes, &rules).ok(), fits.then(|| without_empty(site)), "site {place}");
            read += usize::from(fits);
        }
        assert!(read > 1_000, "only {read} sites were in range");
    }

    #[test]
    fn damaged_bytes_are_refused_or_read_back() {
        let mut reasons = std::collections::BTreeSet::new();
        for place in 0..4_000 {
            let (site, rules, mut draw) = drawn(place);
            let mut bytes = lent_draw::bytes(&mut draw, &site, &rules);
            let at = if draw.percent(50) { draw.below(SITE_BYTES) } else { draw.below(REGISTER) };
            bytes[at] ^= 1 << draw.below(8);
            match decode(&bytes, &rules) {
                Ok(site) => {
                    assert_eq!(reference::lent::check_site(&site, &rules), Ok(()), "byte {at} of site {place}");
                    bytes.truncate(rows_end(span(&bytes)));
                    assert_eq!(encode(&site, span(&bytes)), Some(bytes), "byte {at} of site {place}");
                }
                Err(reason) => _ = reasons.insert(reason),
            }
        }
        assert_eq!(reasons, REASONS.into_iter().collect());
    }

    #[test]
    fn the_parts_are_where_the_format_says() {
        assert_eq!((REGISTER, DELIVERIES, HEARD), (56, 312, 632));
        assert_eq!(rows_end(MOST_ROUND), SITE_BYTES);
        let mut site = Site::start();
        site.heard.insert((33, 10), Set::from([0, 63]));
        site.heard.insert((2, 1), Set::from([8]));
        site.register.readings[31] = 0x0F_0102;
        site.deliveries.push(Delivery { command: 9, answer: -2 });
        site.log_position = 0x0203;
        let bytes = encode(&site, least_span(&site)).expect("the site fits into its bytes");
        assert_eq!(bytes[..8], [1, 0, 3, 2, 1, 0, 33, 0]);
        assert_eq!(bytes[304..308], [2, 1, 15, 0]);
        assert_eq!(bytes[312..317], [9, 254, 255, 255, 255]);
        assert_eq!(bytes[632 + 88 + 8..][..2], [0, 1]);
        assert_eq!(bytes[3528..], [1, 0, 0, 0, 0, 0, 0, 0x80]);
    }

    #[test]
    fn a_site_ends_after_the_rows_of_its_span() {
        let mut site = Site::start();
        assert_eq!(encode(&site, least_span(&site)).map(|bytes| bytes.len()), Some(632));
        site.heard.insert((4, 0), Set::new());
        site.heard.insert((3, 0), Set::from([1]));
        assert_eq!(encode(&site, least_span(&site)).map(|bytes| bytes.len()), Some(632 + 3 * 88));
        assert_eq!(encode(&site, 5).map(|bytes| (span(&bytes), bytes.len())), Some((5, 632 + 5 * 88)));
    }
}
