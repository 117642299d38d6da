//! The proved program, called through its C function in a static archive.

use crate::draw::Draw;
use crate::program::Program;
use crate::site_bytes::{encode, SITE_BYTES};
use reference::World;

unsafe extern "C" {
    /// Plays `run` on `sites`, `log` and `sent` into `out`; gives the number of bytes written to `out`, 0 where a buffer is too short.
    fn dash_register_run(
        run: *const u8,
        run_length: usize,
        sites: *mut u8,
        sites_length: usize,
        log: *mut u8,
        log_length: usize,
        sent: *mut u8,
        sent_length: usize,
        out: *mut u8,
        out_length: usize,
    ) -> usize;
}

/// The sizes of include/dash_register.h.
const SITES_BYTES: usize = 38_896;
const LOG_BYTES: usize = 12_690;
const SENT_BYTES: usize = 189_486;
const PRINT_BYTES: usize = 670_890;

/// So many calls find what the calls before them left in the working memory; then it is filled with other bytes.
const CALLS_BETWEEN_FILLS: u64 = 16;

/// The archive's program with the buffers it is lent.
pub struct Proved {
    sites: Vec<u8>,
    log: Vec<u8>,
    sent: Vec<u8>,
    out: Vec<u8>,
    calls: u64,
}

fn fill(buffer: &mut [u8], draw: &mut Draw) {
    for bytes in buffer.chunks_mut(8) {
        bytes.copy_from_slice(&draw.bits().to_le_bytes()[..bytes.len()]);
    }
}

impl Proved {
    pub fn new() -> Proved {
        let [sites, log, sent, out] = [SITES_BYTES, LOG_BYTES, SENT_BYTES, PRINT_BYTES].map(|size| vec![0; size]);
        Proved { sites, log, sent, out, calls: 0 }
    }

    /// Plays a run on the working memory as it is, and gives the print.
    pub fn print(&mut self, run: &[u8]) -> &[u8] {
        // SAFETY: each pointer comes with the length of its own live buffer, and the function keeps none of them.
        let written = unsafe {
            dash_register_run(
                run.as_ptr(),
                run.len(),
                self.sites.as_mut_ptr(),
                self.sites.len(),
                self.log.as_mut_ptr(),
                self.log.len(),
                self.sent.as_mut_ptr(),
                self.sent.len(),
                self.out.as_mut_ptr(),
                self.out.len(),
            )
        };
        self.out.get(..written).expect("the print fits into its buffer")
    }

    /// The first site whose bytes are not those of this world, which the last run has led to, if there is one.
    pub fn other_site(&self, world: &World) -> Option<usize> {
        let lent = self.sites.chunks(SITE_BYTES).zip(&world.sites);
        lent.enumerate().find_map(|(number, (bytes, site))| {
            let span = site.heard.keys().map(|(round, _)| *round).max().unwrap_or(0);
            let expected = encode(site, span).expect("a site of a run fits into its bytes");
            (!bytes.starts_with(&expected)).then_some(number)
        })
    }

    /// The bytes that a call is lent: to work on, and for the print.
    pub fn lent(&self) -> (usize, usize) {
        (self.sites.len() + self.log.len() + self.sent.len(), self.out.len())
    }

    /// What the working memory holds before a run must not matter to its print.
    fn fill_now_and_then(&mut self) {
        if self.calls % CALLS_BETWEEN_FILLS == 0 {
            let mut draw = Draw::new(self.calls, 0);
            for buffer in [&mut self.sites, &mut self.log, &mut self.sent] {
                fill(buffer, &mut draw);
            }
        }
        self.calls += 1;
    }
}

impl Default for Proved {
    fn default() -> Proved {
        Proved::new()
    }
}

impl Program for Proved {
    fn play(&mut self, run: &[u8]) -> Vec<u8> {
        self.fill_now_and_then();
        self.print(run).to_vec()
    }
}
