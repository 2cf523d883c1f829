//! The rules, followed word by word as the rules document and change requests No. 1 (widths), No. 2
//! (the first fault), No. 3 (papers as files) and No. 4 (the climb as a loop) have them, without
//! regard to speed.

mod begin;
mod check;
mod evaluate;
mod paper;
mod run;
mod tree;
mod walk;
mod well_formed;
mod widths;

pub use begin::{begin, begun};
pub use check::{check, faults};
pub use evaluate::evaluate;
pub use paper::{bytes, read, sizes, write};
pub use run::{climbs, run};
pub use tree::Tree;
