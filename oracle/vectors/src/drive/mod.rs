//! Module 8: document 01's driver beside the crate's own chain (decode, parse, process, finalize, encode), on whole
//! frames.
pub mod answer;
mod chain;
pub mod edges;
mod lenient;
pub mod model;
pub mod random;
pub mod record;
pub mod wire;
