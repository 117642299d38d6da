//! Random headers and books of every shape.

use crate::draw::Draw;

/// Header and book of a run before any damage.
#[derive(Clone, Debug)]
pub struct Opening {
    pub sites: usize,
    pub faults: usize,
    pub mask: u16,
    pub book: Vec<Vec<u8>>,
}

impl Opening {
    pub fn bytes(&self) -> Vec<u8> {
        let book = self.book.concat();
        let mut bytes = vec![self.sites as u8, self.faults as u8];
        bytes.extend(self.mask.to_le_bytes());
        bytes.extend((book.len() as u16).to_le_bytes());
        bytes.extend(book);
        bytes
    }
}

/// How the commands of a book conflict.
#[derive(Clone, Copy, Debug, PartialEq, Eq)]
pub enum Style {
    /// No two commands conflict.
    Free,
    /// Any two commands conflict.
    Full,
    /// Any kinds on a few bikes.
    Mixed,
}

/// A site table within its limits, faulty sites more often than not where some are allowed.
pub fn table(draw: &mut Draw) -> (usize, usize, u16) {
    let sites = if draw.percent(35) { draw.pick(&[1, 6, 6, 11]) } else { draw.within(1, 11) };
    table_of(draw, sites)
}

/// Faults and mask for so many sites.
pub fn table_of(draw: &mut Draw, sites: usize) -> (usize, usize, u16) {
    let most = (sites - 1) / 5;
    let faults = if draw.percent(70) { most } else { draw.below(most + 1) };
    let marked = if draw.percent(70) { faults } else { draw.below(faults + 1) };
    let mut mask = 0u16;
    while (mask.count_ones() as usize) < marked {
        mask |= 1 << draw.below(sites);
    }
    (sites, faults, mask)
}

fn add(draw: &mut Draw, bike: usize) -> Vec<u8> {
    let any = draw.below(65_536) as u16;
    let km = draw.pick(&[0, 1, 20, 65_535, any, any]);
    [&[1, bike as u8][..], &km.to_le_bytes()].concat()
}

fn fit(draw: &mut Draw, bike: usize) -> Vec<u8> {
    let any_dash = draw.bits() as u32;
    let any_start = draw.below(1_000_000) as u32;
    let dash = draw.pick(&[0, 7, u32::MAX, any_dash]);
    let start = draw.pick(&[0, 5, 999_990, 999_999, any_start, any_start]);
    [&[2, bike as u8][..], &dash.to_le_bytes(), &start.to_le_bytes()].concat()
}

fn trim(draw: &mut Draw, bike: usize) -> Vec<u8> {
    let any = draw.below(65_536) as u16 as i16;
    let km = draw.pick(&[0, 1, -1, -9, i16::MIN, i16::MAX, any, any]);
    [&[4, bike as u8][..], &km.to_le_bytes()].concat()
}

fn read(bike: usize) -> Vec<u8> {
    vec![3, bike as u8]
}

fn any_command(draw: &mut Draw, bike: usize) -> Vec<u8> {
    match draw.below(4) {
        0 => add(draw, bike),
        1 => fit(draw, bike),
        2 => trim(draw, bike),
        _ => read(bike),
    }
}

/// Commands without conflicts: each on its own bike, or all ADD, or all READ.
fn free_book(draw: &mut Draw, count: usize) -> Vec<Vec<u8>> {
    let bikes = draw.within(1, 4);
    match draw.below(3) {
        0 if count <= 32 => {
            let mut order: Vec<usize> = (0..32).collect();
            draw.shuffle(&mut order);
            order.into_iter().take(count).map(|bike| any_command(draw, bike)).collect()
        }
        1 => (0..count).map(|_| draw.below(bikes)).collect::<Vec<_>>().into_iter().map(read).collect(),
        _ => (0..count).map(|_| add_on_some(draw, bikes)).collect(),
    }
}

fn add_on_some(draw: &mut Draw, bikes: usize) -> Vec<u8> {
    let bike = draw.below(bikes);
    add(draw, bike)
}

/// Commands that all conflict: one bike, FIT and TRIM, and at most one ADD and one READ.
fn full_book(draw: &mut Draw, count: usize) -> Vec<Vec<u8>> {
    let bike = draw.pick(&[0, 31, 5]);
    let mut book: Vec<Vec<u8>> = Vec::new();
    if draw.percent(50) {
        book.extend([add(draw, bike), read(bike)]);
    }
    while book.len() < count {
        book.push(if draw.percent(40) { fit(draw, bike) } else { trim(draw, bike) });
    }
    book.truncate(count);
    draw.shuffle(&mut book);
    book
}

pub fn book(draw: &mut Draw, style: Style, count: usize) -> Vec<Vec<u8>> {
    let bikes = draw.pick(&[1, 2, 3, 5, 32]);
    match style {
        Style::Free => free_book(draw, count),
        Style::Full => full_book(draw, count),
        Style::Mixed => (0..count)
            .map(|_| draw.below(bikes))
            .collect::<Vec<_>>()
            .into_iter()
            .map(|bike| any_command(draw, bike))
            .collect(),
    }
}

/// Any header and book that are taken.
pub fn opening(draw: &mut Draw) -> Opening {
    let (sites, faults, mask) = table(draw);
    let style = draw.pick(&[Style::Free, Style::Full, Style::Mixed, Style::Mixed]);
    let size = draw.below(100);
    let count = match size {
        0..=4 => 0,
        5..=69 => draw.within(1, 8),
        70..=94 => draw.within(9, 40),
        95..=97 => draw.within(41, 63),
        _ => 64,
    };
    Opening { sites, faults, mask, book: book(draw, style, count) }
}
