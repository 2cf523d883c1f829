//! Schedules, or books, for long runs, which would take the reference long to find.

use super::machine::Machine;
use super::takes;
use crate::program::{Program, State};

/// The entries of each cycle, ascending, for so many cycles or as many as can be worked. Where one
/// is refused, its entries come last.
pub fn ascending_schedule(program: &Program, state: &State, cycles: u16) -> Vec<u16> {
    assert!(takes(program, state), "no cycle can be worked");
    let (mut marks, mut counts) = (state.marks.clone(), state.counts.clone());
    let mut machine = Machine::load(program, &state.values, &mut marks, &mut counts, false);
    let mut list = Vec::new();
    for _ in 0..cycles {
        let from = list.len();
        let marked = (0..).zip(machine.marks()).filter(|(_, mark)| **mark == 1);
        list.extend(marked.map(|(i, _)| i));
        if list.len() == from || machine.cycle(&list[from..]) != 0 {
            break;
        }
    }
    list
}
