//! A scheduler as one would write it in Rust with no proofs, over tables of the same sizes as ours. It is what our
//! instruction counts are put beside.

pub mod files;
mod graph;
mod run;
mod tables;

pub use run::{run, steps_in};
