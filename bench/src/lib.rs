//! A tuned program of the dash register and what is needed to measure it beside the reference and the proved one.

pub mod calls;
pub mod measure;
pub mod memory;
pub mod processes;
pub mod programs;
#[cfg(feature = "archive")]
pub mod proved;
pub mod table;
pub mod tuned;
pub mod workloads;
pub mod writer;
