//! Random lent sites with logs, consistent and not, and calls on them.

use crate::books;
use crate::draw::Draw;
use crate::generator;
use crate::lent_calls::{Buffer, Call, Lent};
use crate::site_bytes::{encode, least_span, SPAN};
use reference::log::ENTRY_BYTES;
use reference::message::MESSAGE_BYTES;
use reference::site::MOST_ROUND;
use reference::{bytes_of_set, play_run, Delivery, Entry, Phase, Proposal, Rules, Set, Site, SiteTable};

/// A number from low to high, or now and then one that is out of range.
pub fn around(draw: &mut Draw, low: usize, high: usize) -> usize {
    if draw.percent(1) {
        draw.pick(&[low.saturating_sub(1), high + 1, 255])
    } else {
        draw.within(low, high)
    }
}

/// A set of the book's commands, now and then with one beyond it.
pub fn set(draw: &mut Draw, rules: &Rules) -> Set {
    let density = draw.pick(&[0, 20, 60, 100]);
    let mut set: Set = (0..rules.book.count()).filter(|_| draw.percent(density)).collect();
    if draw.percent(1) {
        set.insert(draw.within(rules.book.count(), 64));
    }
    set
}

/// A message of either kind, often of the site's round.
pub fn message(draw: &mut Draw, rules: &Rules, site: &Site) -> Vec<u8> {
    let (kind, any) = (draw.pick(&[1, 1, 1, 2, 2]), around(draw, 1, MOST_ROUND));
    let round = if draw.percent(60) { site.round } else { any };
    [&[kind, round as u8][..], &bytes_of_set(&set(draw, rules))].concat()
}

/// A round that is often the same, so that site and log meet.
fn round(draw: &mut Draw, most: usize) -> usize {
    let usual = draw.pick(&[1, 2, most]);
    if draw.percent(80) {
        usual
    } else {
        around(draw, 1, most)
    }
}

/// A log of any entries, at times with its end cut.
pub fn log(draw: &mut Draw, rules: &Rules) -> Vec<u8> {
    let mut log = Vec::new();
    for _ in 0..draw.below(12) {
        let (site, round) = (around(draw, 0, rules.table.sites() - 1), round(draw, 32));
        log.extend(Entry { site, round, nc: set(draw, rules), c: set(draw, rules) }.bytes());
    }
    if draw.percent(5) {
        log.truncate(log.len() - draw.below(log.len().min(17) + 1));
    }
    log
}

/// A site of any fields, consistent or not, with some of its numbers out of range at times.
pub fn site(draw: &mut Draw, rules: &Rules, entries: usize) -> Site {
    let mut site = Site::start();
    site.received = set(draw, rules);
    site.g_del = if draw.percent(60) { Set::new() } else { set(draw, rules) };
    site.pending = set(draw, rules);
    site.g_ack_del = if draw.percent(60) { Set::new() } else { set(draw, rules) };
    site.round = round(draw, 33);
    site.log_position = draw.below(entries + 1) + usize::from(draw.percent(1));
    if draw.percent(50) {
        site.phase = Phase::Waiting(Proposal { nc: set(draw, rules), c: set(draw, rules) });
    }
    for sender in 0..rules.table.sites() {
        let key = (if draw.percent(90) { site.round } else { round(draw, 33) }, sender);
        site.heard.insert(key, set(draw, rules));
    }
    let count = rules.book.count();
    let recorded = if draw.percent(50) { 0 } else { around(draw, 0, count) };
    let delivery = |draw: &mut Draw| Delivery { command: draw.below(count), answer: draw.bits() as i32 };
    site.deliveries = (0..recorded).map(|_| delivery(draw)).collect();
    site.register.readings[draw.below(32)] = draw.pick(&[0, 7, 999_999, 999_999, 999_990]);
    site
}

/// A site with its log, on which calls are tried one after another.
#[derive(Clone, Debug)]
pub struct Scene {
    pub rules: Rules,
    pub book: Vec<u8>,
    pub site: Site,
    pub log: Vec<u8>,
    /// The site's number.
    pub own: usize,
}

/// The scene of a site that a run has led to, or of one with any fields.
pub fn scene(draw: &mut Draw) -> Scene {
    let mut scene = if draw.percent(30) { scene_of_run(draw) } else { scene_of_any(draw) };
    while encode(&scene.site, least_span(&scene.site)).is_none() {
        scene = scene_of_any(draw);
    }
    scene
}

/// The book's bytes of a run that is taken, or of its opening.
fn book_of(run: &[u8]) -> Vec<u8> {
    let length = usize::from(u16::from_le_bytes([run[4], run[5]]));
    run[6..6 + length].to_vec()
}

fn scene_of_any(draw: &mut Draw) -> Scene {
    let opening = books::opening(draw).bytes();
    let rules = play_run(&opening).expect("an opening is taken").world.rules;
    let log = log(draw, &rules);
    let mut site = site(draw, &rules, log.len() / 18);
    site.register.dashes = site.register.dashes.map(|_| draw.bits() as u32);
    let own = draw.below(rules.table.sites());
    let mut scene = Scene { rules, book: book_of(&opening), site, log, own };
    match draw.below(100) {
        0..=24 => aim_at_round_end(draw, &mut scene),
        25..=49 => aim_at_fast_delivery(draw, &mut scene),
        50..=74 => aim_at_third_entry(draw, &mut scene),
        75 => aim_at_long_log(draw, &mut scene),
        _ => {}
    }
    if draw.percent(20) {
        forget_round(&mut scene.site);
    }
    if draw.percent(10) {
        let delivery = Delivery { command: draw.below(scene.rules.book.count()), answer: draw.bits() as i32 };
        scene.site.deliveries = vec![delivery; scene.rules.book.count()];
    }
    scene
}

/// A waiting site and a log in which most sources have one entry of its round.
fn aim_at_round_end(draw: &mut Draw, scene: &mut Scene) {
    let Scene { rules, site, log, .. } = scene;
    site.phase = Phase::Waiting(Proposal { nc: set(draw, rules), c: set(draw, rules) });
    site.round = draw.within(1, 32);
    let mut sources: Vec<usize> = (0..rules.table.sites()).filter(|_| draw.percent(97)).collect();
    draw.shuffle(&mut sources);
    log.clear();
    for source in sources {
        let mut nc = if draw.percent(30) { Set::new() } else { set(draw, rules) };
        while !rules.book.is_free_of_conflict(&nc) && draw.percent(95) {
            nc.pop_first();
        }
        let entry = Entry { site: source, round: site.round, nc, c: set(draw, rules) }.bytes();
        log.extend(entry.repeat(draw.pick(&[1, 1, 1, 1, 1, 1, 1, 1, 1, 2])));
    }
    site.log_position = log.len() / 18 - usize::from(draw.percent(20) && !log.is_empty());
}

/// A site that heard nearly the same of all senders in its round.
fn aim_at_fast_delivery(draw: &mut Draw, scene: &mut Scene) {
    let Scene { rules, site, .. } = scene;
    let heard = set(draw, rules);
    site.pending.extend(&heard);
    for sender in 0..rules.table.sites() {
        let set = if draw.percent(90) { heard.clone() } else { set(draw, rules) };
        site.heard.insert((site.round.clamp(1, 33), sender), set);
    }
}

/// The site has heard nothing in its round yet, nor in later ones.
fn forget_round(site: &mut Site) {
    let own = site.round;
    site.heard.retain(|(round, _), _| *round < own);
}

/// A log that ends in two or three entries of the site itself, whatever their sets; the last may be unread.
fn aim_at_third_entry(draw: &mut Draw, scene: &mut Scene) {
    let Scene { rules, site, log, own, .. } = scene;
    if draw.percent(50) {
        site.phase = Phase::Acknowledging;
    }
    log.truncate(18 * (log.len() / 18));
    let round = if draw.percent(90) { site.round } else { 1 };
    for _ in 0..draw.pick(&[1, 2, 2, 3]) {
        let (nc, mut c) = (set(draw, rules), set(draw, rules));
        if draw.percent(20) {
            c.insert(draw.within(rules.book.count(), 63));
        }
        log.extend(Entry { site: *own, round, nc, c }.bytes());
    }
    site.log_position = (log.len() / 18).saturating_sub(draw.below(4));
}

fn scene_of_run(draw: &mut Draw) -> Scene {
    let run = match draw.below(10) {
        0..=4 => generator::short(draw),
        5..=8 => generator::lagging(draw),
        _ => generator::medium(draw),
    };
    let world = play_run(&run).expect("the opening of a run is taken").world;
    let own = draw.pick(&world.correct());
    let log = world.log.iter().flat_map(Entry::bytes).collect();
    Scene { rules: world.rules, book: book_of(&run), site: world.sites[own].clone(), log, own }
}

/// A log with nearly two entries of every source in every round, most of them read.
fn aim_at_long_log(draw: &mut Draw, scene: &mut Scene) {
    let Scene { rules, site, log, .. } = scene;
    let mut order: Vec<(usize, usize)> = (0..rules.table.sites()).flat_map(|i| (1..=32).map(move |r| (i, r))).collect();
    order.extend(order.clone());
    draw.shuffle(&mut order);
    order.truncate(order.len() - draw.below(3));
    let sets: Vec<Set> = (0..8).map(|_| set(draw, rules)).filter(|set| rules.book.holds(set)).collect();
    let any = |draw: &mut Draw| sets.get(draw.below(sets.len())).cloned().unwrap_or_default();
    let entries = order.iter().map(|(site, round)| Entry { site: *site, round: *round, nc: any(draw), c: any(draw) });
    *log = entries.flat_map(|entry| entry.bytes()).collect();
    site.log_position = log.len() / 18 - draw.below(3);
}

/// So many rows past those of a site: the same byte all over, what another site heard, or anything.
fn rest(draw: &mut Draw, rules: &Rules, rows: usize) -> Vec<u8> {
    let sets = rows * SiteTable::MOST_SITES;
    match draw.below(4) {
        0 => vec![0; 8 * sets],
        1 => vec![255; 8 * sets],
        2 => {
            let all = bytes_of_set(&(0..rules.book.count()).collect());
            let mut row = all.repeat(rules.table.sites());
            row.resize(8 * SiteTable::MOST_SITES, 0);
            row.repeat(rows)
        }
        _ => (0..sets).flat_map(|_| draw.bits().to_le_bytes()).collect(),
    }
}

/// The bytes lent for a site, whose numbers fit into bytes: its rows of sets heard reach as far as they must, or
/// further, and past them is anything.
pub fn bytes(draw: &mut Draw, site: &Site, rules: &Rules) -> Vec<u8> {
    let least = least_span(site);
    let further = draw.within(least, MOST_ROUND);
    let span = draw.pick(&[least, least, further, MOST_ROUND]);
    let mut bytes = encode(site, span).expect("a scene's site fits into its bytes");
    bytes.extend(rest(draw, rules, MOST_ROUND - span));
    bytes
}

/// A buffer at least as long as asked for, with bytes of any kind past its content.
fn buffer(draw: &mut Draw, content: &[u8]) -> Buffer {
    let more = draw.pick(&[0, 0, 1, 7, 40]);
    let tail: Vec<u8> = (0..more).map(|_| draw.byte()).collect();
    Buffer::new(&[content, &tail].concat(), draw.byte())
}

/// So many bytes of any kind, and at times more of them.
fn room(draw: &mut Draw, size: usize) -> Buffer {
    let any: Vec<u8> = (0..size).map(|_| draw.byte()).collect();
    buffer(draw, &any)
}

impl Scene {
    /// The table as a run's header has it: with a mask, where the call judges one.
    fn table(&self, draw: &mut Draw, call: &Call) -> Vec<u8> {
        let mut table = vec![self.rules.table.sites() as u8, self.rules.table.faults() as u8];
        if *call == Call::JudgeTable {
            let any = draw.bits() as u16;
            let mask: u16 = draw.pick(&[0, 0, 0, 1, 2, 3, 7, 1 << 5, 1 << 10, 1 << 11, 1 << 15, 33, any]);
            table.extend(mask.to_le_bytes());
        }
        table
    }

    /// What is lent to a call in this scene, whose site's numbers fit into bytes; now and then its span is out of
    /// range.
    pub fn lent(&self, draw: &mut Draw, call: &Call) -> Lent {
        let mut site = bytes(draw, &self.site, &self.rules);
        if draw.percent(1) {
            let span: u16 = draw.pick(&[34, 35, 255, 256, 256 + 33, u16::MAX]);
            site[SPAN..SPAN + 2].copy_from_slice(&span.to_le_bytes());
        }
        let table = self.table(draw, call);
        let message = match call {
            Call::Receive { .. } => Buffer::new(&message(draw, &self.rules, &self.site), draw.byte()),
            _ => room(draw, MESSAGE_BYTES),
        };
        Lent {
            table: buffer(draw, &table),
            book: Buffer::new(&self.book, draw.byte()),
            site: buffer(draw, &site),
            log: Buffer::new(&self.log, draw.byte()),
            message,
            entry: room(draw, ENTRY_BYTES),
            out: room(draw, 8),
        }
    }
}

/// A number for a call: in range, or now and then far out of it, also by what a narrow number would lose.
fn operand(draw: &mut Draw, low: usize, high: usize) -> usize {
    let inside = draw.within(low, high);
    if draw.percent(3) {
        draw.pick(&[low.wrapping_sub(1), high + 1, 255, inside + 256, inside + 65_536, inside + (1 << 32), usize::MAX])
    } else {
        inside
    }
}

/// A command for a fast delivery, one that is enabled where there is one.
fn fast_command(draw: &mut Draw, scene: &Scene) -> usize {
    let Scene { site, rules, .. } = scene;
    let enabled: Vec<usize> = (0..rules.book.count()).filter(|m| site.is_fast_delivery_enabled(rules, *m)).collect();
    if !enabled.is_empty() && draw.percent(60) {
        draw.pick(&enabled)
    } else {
        operand(draw, 0, rules.book.count().saturating_sub(1))
    }
}

/// A call that the scene's site takes or refuses; steps are more frequent than the rest.
pub fn call(draw: &mut Draw, scene: &Scene) -> Call {
    let (sites, count) = (scene.rules.table.sites(), scene.rules.book.count());
    if scene.site.is_turn_enabled() && draw.percent(15) {
        return Call::Turn { own: scene.own };
    }
    match draw.below(24) {
        0 => Call::JudgeTable,
        1 => Call::JudgeBook,
        2 => Call::Fresh,
        3 | 4 => Call::ReceiveCommand { command: operand(draw, 0, count.saturating_sub(1)) },
        5..=9 => Call::Receive { sender: operand(draw, 0, sites - 1) },
        10..=13 => Call::Turn { own: if draw.percent(80) { scene.own } else { operand(draw, 0, sites - 1) } },
        14 | 15 => Call::FastDelivery { command: fast_command(draw, scene) },
        16 | 17 => Call::LogRead,
        18 | 19 => Call::RoundEnd,
        20 => Call::Status,
        21 => Call::Bike { bike: operand(draw, 0, 31) },
        _ => Call::Delivery { place: operand(draw, 0, scene.site.deliveries.len()) },
    }
}
