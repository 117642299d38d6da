//! Random runs and calls for the reference and for programs compared with it.
//!
//! `cargo test --offline` plays 20,000 runs and checks demand 3 of each. BEURILMA_RUNS and BEURILMA_SEED change
//! their number and their seed, BEURILMA_FUZZ_SECONDS the time spent on damaged bytes. It also makes 100,000 calls of
//! a stand-in for the one-site engine (BEURILMA_CALLS changes their number) and compares each with the reference.
//!
//! With `--features archive` and DASH_REGISTER_ARCHIVE, the path of the library's static archive, every print is also
//! compared with that of the proved program, and as many calls are made of the proved engine.

pub mod books;
pub mod damage;
pub mod draw;
pub mod driver;
#[cfg(feature = "archive")]
pub mod engine;
pub mod expected;
pub mod generator;
pub mod lent_calls;
pub mod lent_check;
pub mod lent_damage;
pub mod lent_draw;
pub mod lent_scenes;
pub mod noise;
pub mod parts;
pub mod program;
#[cfg(feature = "archive")]
pub mod proved;
pub mod settings;
pub mod shrink;
pub mod site_bytes;
pub mod stand_in;
pub mod statistics;
