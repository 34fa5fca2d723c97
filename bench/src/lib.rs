//! What the benchmark's programs share.

pub mod active;
pub mod answer;
pub mod checks;
pub mod library;
pub mod random;
pub mod records;
pub mod sheets;
pub mod states;
pub mod timing;
pub mod words;
