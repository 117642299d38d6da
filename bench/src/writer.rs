//! Runs written step by step while the reference's world takes the steps, each with the outcome that was meant.

use compare::books::Opening;
use compare::lent_calls::{Buffer, Lent};
use compare::site_bytes::{encode, least_span, SITE_BYTES};
use reference::log::ENTRY_BYTES;
use reference::message::MESSAGE_BYTES;
use reference::{play_run, Entry, Set, Step, World, MOST_BYTES};

pub struct Writer {
    pub world: World,
    pub correct: Vec<usize>,
    pub faulty: Vec<usize>,
    book: Vec<u8>,
    bytes: Vec<u8>,
}

/// Room for what any call that looks at a site writes out.
const OUT_BYTES: usize = 8;
/// The table with its mask, as the run begins.
const TABLE_BYTES: usize = 4;

impl Writer {
    /// A run with so many sites and as many faults as they allow; the last `faulty` sites are faulty.
    pub fn new(sites: usize, faulty: usize, book: Vec<Vec<u8>>) -> Writer {
        let mask = (sites - faulty..sites).fold(0, |mask, site| mask | 1 << site);
        let lines = book.concat();
        let bytes = Opening { sites, faults: (sites - 1) / 5, mask, book }.bytes();
        let world = play_run(&bytes).expect("the opening is taken").world;
        let faulty = world.faulty.iter().copied().collect();
        Writer { correct: world.correct(), faulty, world, book: lines, bytes }
    }

    fn step(&mut self, step: &Step) -> Result<(), u32> {
        self.bytes.extend(step.bytes());
        assert!(self.bytes.len() <= MOST_BYTES, "the run is too long");
        self.world.step(step)
    }

    /// A step that is taken.
    pub fn take(&mut self, step: Step) {
        assert_eq!(self.step(&step), Ok(()), "{step:?}");
    }

    /// A step that is refused with this number.
    pub fn refuse(&mut self, step: &Step, number: u32) {
        assert_eq!(self.step(step), Err(number), "{step:?}");
    }

    pub fn command(&mut self, command: usize) {
        for to in self.correct.clone() {
            self.take(Step::Command { to, command });
        }
    }

    pub fn turns(&mut self) {
        for site in self.correct.clone() {
            self.take(Step::Turn { site });
        }
    }

    /// Every site's a-th acknowledgment of a round reaches every site; faulty ones acknowledge the set.
    pub fn acknowledgments(&mut self, round: usize, a: usize, set: &Set) {
        for to in self.correct.clone() {
            for from in self.correct.clone() {
                self.take(Step::Acknowledgment { to, from, round, a });
            }
            for from in self.faulty.clone() {
                self.take(Step::FaultyAcknowledgment { to, from, round, set: set.clone() });
            }
        }
    }

    pub fn checks(&mut self, round: usize) {
        for to in self.correct.clone() {
            for from in self.correct.clone() {
                self.take(Step::Check { to, from, round });
            }
        }
    }

    pub fn fast_deliveries(&mut self, command: usize) {
        for site in self.correct.clone() {
            self.take(Step::FastDelivery { site, command });
        }
    }

    /// The site reads the log to its end.
    pub fn read_all(&mut self, site: usize) {
        self.read_to(site, self.world.log.len());
    }

    /// The site reads the log to this position.
    pub fn read_to(&mut self, site: usize, position: usize) {
        while self.world.sites[site].log_position < position {
            self.take(Step::LogRead { site });
        }
    }

    /// These sites read to the end of the log and end their round.
    pub fn end_round(&mut self, sites: &[usize]) {
        for site in sites {
            self.read_all(*site);
        }
        for site in sites {
            self.take(Step::RoundEnd { site: *site });
        }
    }

    /// What a host lends for a site as it stands: it has rows for the rounds in which it heard something.
    pub fn lent(&self, site: usize) -> Lent {
        let log: Vec<u8> = self.world.log.iter().flat_map(Entry::bytes).collect();
        let site = &self.world.sites[site];
        let mut bytes = encode(site, least_span(site)).expect("a site of a run fits into its bytes");
        bytes.resize(SITE_BYTES, 0);
        Lent {
            table: Buffer::new(&self.bytes[..TABLE_BYTES], 0),
            book: Buffer::new(&self.book, 0),
            site: Buffer::new(&bytes, 0),
            log: Buffer::new(&log, 0),
            message: Buffer::new(&[0; MESSAGE_BYTES], 0),
            entry: Buffer::new(&[0; ENTRY_BYTES], 0),
            out: Buffer::new(&[0; OUT_BYTES], 0),
        }
    }

    /// The run as it stands.
    pub fn run(&self) -> Vec<u8> {
        self.bytes.clone()
    }
}
