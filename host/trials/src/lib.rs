//! Trials of the proved library: beside the reference for its answers, beside a Rust side written for speed for its time.

pub mod compared;
pub mod demand3;
pub mod lent;
pub mod sides;
