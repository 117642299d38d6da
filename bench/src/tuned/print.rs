//! The print, written into one buffer with room for the longest (document 01, "A run and its print").

use super::site::Delivery;

/// 29,997 refused steps take at most 21 bytes each, 11 sites with 64 deliveries 731 each, the first line 34;
/// the rest lets a piece be written whole at the end.
pub const OUT_BYTES: usize = 640_000;

/// The two digits of every number below 100.
const PAIRS: [[u8; 2]; 100] = {
    let mut pairs = [[0; 2]; 100];
    let mut number = 0;
    while number < 100 {
        pairs[number] = [b'0' + (number / 10) as u8, b'0' + (number % 10) as u8];
        number += 1;
    }
    pairs
};

/// The digits of a number of D digits.
#[inline(always)]
fn digits<const D: usize>(number: u32) -> [u8; D] {
    let mut text = [b'0'; D];
    let (mut left, mut at) = (number, D);
    while at >= 2 {
        at -= 2;
        [text[at], text[at + 1]] = PAIRS[left as usize % 100];
        left /= 100;
    }
    if at == 1 {
        text[0] = b'0' + left as u8;
    }
    text
}

pub struct Printer<'a> {
    out: &'a mut [u8; OUT_BYTES],
    length: usize,
}

impl<'a> Printer<'a> {
    pub fn new(out: &'a mut [u8]) -> Printer<'a> {
        let out = out.first_chunk_mut().expect("the buffer has room for the longest print");
        Printer { out, length: 0 }
    }

    pub fn length(&self) -> usize {
        self.length
    }

    /// Writes a piece of a fixed length.
    #[inline(always)]
    pub fn put<const N: usize>(&mut self, piece: [u8; N]) {
        self.out[self.length..self.length + N].copy_from_slice(&piece);
        self.length += N;
    }

    /// A number below 1,000,000 without leading zeros.
    #[inline(always)]
    pub fn put_number(&mut self, number: u32) {
        match number {
            0..=9 => self.put(digits::<1>(number)),
            10..=99 => self.put(digits::<2>(number)),
            100..=999 => self.put(digits::<3>(number)),
            1000..=9999 => self.put(digits::<4>(number)),
            10_000..=99_999 => self.put(digits::<5>(number)),
            _ => self.put(digits::<6>(number)),
        }
    }

    /// A refused size, header or book prints this line only.
    pub fn refused(&mut self, refusal: u32) {
        self.put(*b"refused ");
        self.put([b'0' + refusal as u8, b'\n']);
    }

    /// A function of its own, so that the loop over the steps keeps its registers.
    #[inline(never)]
    pub fn step_refused(&mut self, number: u32, refusal: u32) {
        self.length += match number {
            0..=9 => self.step_line::<1>(number, refusal),
            10..=99 => self.step_line::<2>(number, refusal),
            100..=999 => self.step_line::<3>(number, refusal),
            1000..=9999 => self.step_line::<4>(number, refusal),
            _ => self.step_line::<5>(number, refusal),
        };
    }

    /// The line of a refused step whose number has D digits, and its length.
    #[inline(always)]
    fn step_line<const D: usize>(&mut self, number: u32, refusal: u32) -> usize {
        let line: &mut [u8; 21] = self.out[self.length..].first_chunk_mut().expect("there is room for a line");
        line[..5].copy_from_slice(b"step ");
        line[5..5 + D].copy_from_slice(&digits::<D>(number));
        line[5 + D..13 + D].copy_from_slice(b" refused");
        line[13 + D..16 + D].copy_from_slice(&[b' ', b'0' + refusal as u8, b'\n']);
        16 + D
    }

    pub fn site(&mut self, number: u8, round: u8, deliveries: &[Delivery]) {
        let mut line = *b"site 00 round 00 delivered";
        line[5..7].copy_from_slice(&PAIRS[usize::from(number) % 100]);
        line[14..16].copy_from_slice(&PAIRS[usize::from(round) % 100]);
        self.put(line);
        for delivery in deliveries {
            let [tens, ones] = PAIRS[delivery.command as usize % 100];
            self.put([b' ', tens, ones, b'=']);
            if delivery.answer < 0 {
                self.put([b'-']);
            }
            self.put_number(delivery.answer.unsigned_abs());
        }
        self.put([b'\n']);
    }
}
