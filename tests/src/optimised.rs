//! Run, written for speed, to time the player against. Its answers are those of the reference, for
//! every input.
//!
//! The tables of a program are turned into ones that are quick to follow, once for each call that
//! asks for a cycle; the cycles then allocate nothing. Marks and counts are changed in place. A
//! refused cycle ends the run, so that undoing it may be slow: only the stored values are kept for
//! it, the rest is worked out again.
//!
//! There are two of it: `run` walks over the nodes as the player does, and `run_compiled` has worked
//! out before the first cycle what entering and leaving comes to whatever the values are.
//!
//! `read` and `write` do the same for files.

mod accept;
mod arithmetic;
mod channels;
mod compile;
mod formulas;
mod machine;
mod nodes;
mod paper;
mod parts;
mod schedule;
mod stores;
mod undo;
mod walk;
mod well_formed;

pub use paper::{read, sizes, write};
pub use schedule::ascending_schedule;

use crate::answer::Answer;
use crate::program::{Program, State};
use crate::reference;
use machine::Machine;

/// The answer and the cycles worked; the state is written in place.
pub fn run(program: &Program, state: &mut State, schedule: &[u16], cycles: u16) -> (Answer, u16) {
    run_on(program, state, schedule, cycles, false)
}

/// The same, with the nodes passed that a walk passes in every cycle.
pub fn run_compiled(
    program: &Program,
    state: &mut State,
    schedule: &[u16],
    cycles: u16,
) -> (Answer, u16) {
    run_on(program, state, schedule, cycles, true)
}

fn run_on(
    program: &Program,
    state: &mut State,
    schedule: &[u16],
    cycles: u16,
    compiled: bool,
) -> (Answer, u16) {
    if !takes(program, state) {
        // Which of the questions before the first cycle is broken, and by what, need not be found
        // quickly.
        let (answer, worked, _) = reference::run(program, state, schedule, cycles);
        return (answer, worked);
    }
    if cycles == 0 {
        return (Answer::without_item(0), 0);
    }
    let State {
        values,
        marks,
        counts,
    } = state;
    let mut machine = Machine::load(program, values, marks, counts, compiled);
    let (number, worked) = machine.run(schedule, cycles);
    values.copy_from_slice(machine.values());
    (Answer::without_item(number), worked)
}

/// Whether all the questions that come before the first cycle are answered with yes.
pub fn takes(program: &Program, state: &State) -> bool {
    accept::accepted(program)
        && well_formed::fits(program, state)
        && well_formed::holds(program, state)
}
