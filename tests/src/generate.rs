//! Random cases. Every function takes its numbers from a `Random` and nothing else.

mod climbing;
mod damage;
mod expressions;
mod faults;
mod files;
mod late;
mod maker;
mod pattern;
mod program;
mod schedule;
mod shape;
mod state;
mod values;
mod widths;

pub use climbing::climbing;
pub use damage::{any_program, changes, damage, rubbish, tight_limits};
pub use faults::{places, spoil};
pub use files::{buffers, bytes_of, damage_file, laid_out, words_of};
pub use late::late;
pub use program::program;
pub use schedule::{flawed_schedule, right_schedule, schedule};
pub use shape::{shape, small_shape, Shape};
pub use state::{counts_for, damaged_state, reached_state, well_formed_state};
pub use values::{values, widen};
pub use widths::other_widths;
