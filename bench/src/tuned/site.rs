//! One site: the words every step touches first, then its tables (document 01, "What a site does").

use super::book::{Bike, Book, BIKES};
use super::{COMMANDS, ROUNDS, SITES};

/// A site acknowledges at most so often in a round: each time its pending set has grown.
pub const ACKNOWLEDGMENTS: usize = 64;
/// A site sends acknowledgments in rounds 1 to 33.
const SENT: usize = ACKNOWLEDGMENTS * (ROUNDS - 1);
/// Senders of a row of what was heard, and one more so that pairs come out even.
const SENDERS: usize = SITES + 1;

/// Where the acknowledgments of a round stand among those that a site has sent.
#[derive(Clone, Copy)]
struct Span {
    start: u16,
    count: u16,
}

const NOTHING_SENT: Span = Span { start: 0, count: 0 };

const INITIAL_REGISTER: [Bike; BIKES] = [Bike { reading: 0, dash: 0 }; BIKES];

#[derive(Clone, Copy)]
pub struct Delivery {
    pub command: u32,
    pub answer: i32,
}

#[repr(C, align(64))]
pub struct Site {
    pub received: u64,
    /// Delivered in earlier rounds: G_del of source document 004.
    pub delivered: u64,
    /// Acknowledged in this round.
    pub pending: u64,
    /// Delivered fast in this round: gAck_del of source document 004.
    pub fast: u64,
    /// The rounds, as bits, in which something was heard; the rows of others are not looked at.
    heard_rounds: u64,
    pub log_position: u16,
    pub round: u8,
    pub is_waiting: bool,
    count: u8,
    /// For each round; none after this site's round has anything.
    spans: [Span; ROUNDS],
    register: [Bike; BIKES],
    deliveries: [Delivery; COMMANDS],
    /// What was heard, by round and sender: the senders of a round stand together.
    heard: [[u64; SENDERS]; ROUNDS],
    /// What was sent as acknowledgments, one after another.
    sent: [u64; SENT],
}

impl Site {
    pub fn new() -> Site {
        Site {
            received: 0,
            delivered: 0,
            pending: 0,
            fast: 0,
            heard_rounds: 0,
            log_position: 0,
            round: 1,
            is_waiting: false,
            count: 0,
            spans: [NOTHING_SENT; ROUNDS],
            register: INITIAL_REGISTER,
            deliveries: [Delivery { command: 0, answer: 0 }; COMMANDS],
            heard: [[0; SENDERS]; ROUNDS],
            sent: [0; SENT],
        }
    }

    /// The start of a run; clears what the last one has used.
    #[inline(always)]
    pub fn start(&mut self) {
        self.spans[..=usize::from(self.round)].fill(NOTHING_SENT);
        self.register = INITIAL_REGISTER;
        (self.received, self.delivered, self.pending, self.fast) = (0, 0, 0, 0);
        (self.heard_rounds, self.log_position, self.count) = (0, 0, 0);
        self.round = 1;
        self.is_waiting = false;
    }

    pub fn deliveries(&self) -> &[Delivery] {
        &self.deliveries[..usize::from(self.count)]
    }

    /// An acknowledgment joins Received and is kept under its sender and round.
    #[inline(always)]
    pub fn hear(&mut self, sender: u8, round: u8, set: u64) {
        self.received |= set;
        let row = &mut self.heard[usize::from(round)];
        if self.heard_rounds >> round & 1 == 0 {
            self.heard_rounds |= 1 << round;
            *row = [0; SENDERS];
        }
        row[usize::from(sender)] |= set;
    }

    /// How many senders have acknowledged the command in this site's round.
    #[inline(always)]
    pub fn senders(&self, command: u8) -> u64 {
        if self.heard_rounds >> self.round & 1 == 0 {
            return 0;
        }
        self.heard[usize::from(self.round)].iter().map(|set| set >> command & 1).sum()
    }

    /// Sends the pending set as this round's next acknowledgment.
    #[inline(always)]
    pub fn acknowledge(&mut self) {
        let span = &mut self.spans[usize::from(self.round)];
        self.sent[usize::from(span.start + span.count)] = self.pending;
        span.count += 1;
    }

    /// The acknowledgment that was sent in a round after so many; none where it was not sent.
    #[inline(always)]
    pub fn acknowledgment(&self, round: u8, after: u8) -> Option<u64> {
        let span = self.spans.get(usize::from(round))?;
        let after = u16::from(after);
        (after < span.count).then(|| self.sent[usize::from(span.start + after)])
    }

    /// Whether this many deliveries more are within the commands of the book.
    #[inline(always)]
    pub fn has_room(&self, book: &Book, more: u32) -> bool {
        u32::from(self.count) + more <= u32::from(book.count)
    }

    /// Executes a command and records its answer; there must be room for it.
    #[inline(always)]
    pub fn deliver(&mut self, book: &Book, number: u32) {
        let command = &book.commands[number as usize % COMMANDS];
        let bike = &mut self.register[usize::from(command.bike) % BIKES];
        let (after, answer) = command.execute(*bike);
        *bike = after;
        self.deliveries[usize::from(self.count) % COMMANDS] = Delivery { command: number, answer };
        self.count += 1;
    }

    /// The next round, after a decision that delivers these commands.
    #[inline(always)]
    pub fn next_round(&mut self, decided: u64) {
        let Span { start, count } = self.spans[usize::from(self.round)];
        self.delivered |= decided;
        self.pending = 0;
        self.fast = 0;
        self.is_waiting = false;
        self.round += 1;
        self.spans[usize::from(self.round)] = Span { start: start + count, count: 0 };
    }
}
