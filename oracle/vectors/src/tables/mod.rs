//! Module 4: the bounded response and the four lent tables.
pub mod answer;
pub mod edges;
pub mod exhaustive;
pub mod random;
pub mod record;
pub mod storage;
