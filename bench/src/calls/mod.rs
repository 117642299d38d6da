//! Single calls of one site through include/dash_register.h, measured in the reference and in the proved library.

pub mod cases;
pub mod engines;
pub mod measure;
pub mod refused;
pub mod stack;
