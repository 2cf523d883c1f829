//! Questions 5 and 6, in one pass over the values and one from the last node to the first.

use crate::program::{Program, State, PAR};

pub fn fits(program: &Program, state: &State) -> bool {
    state.values.len() == program.vars as usize
        && state.marks.len() == program.node_count()
        && state.counts.len() == program.node_count()
}

pub fn holds(program: &Program, state: &State) -> bool {
    values_hold(program, state) && nodes_hold(program, state)
}

fn values_hold(program: &Program, state: &State) -> bool {
    let mut pairs = state.values.iter().zip(&program.widths);
    pairs.all(|(&value, &width)| (value as u32) >> width == 0)
}

/// Two marked leaves meet in a node that has two children with a marked leaf; so it is enough
/// that no node but a PAR has two.
fn nodes_hold(program: &Program, state: &State) -> bool {
    let n = program.node_count();
    let mut live_children = vec![0; n];
    for i in (0..n).rev() {
        let live = live_children[i];
        let mark_right = state.marks[i] == 0 || state.marks[i] == 1 && program.is_leaf(i);
        let count_right = match program.kind(i) {
            PAR => state.counts[i] == live,
            _ => state.counts[i] == 0 && live <= 1,
        };
        if !mark_right || !count_right {
            return false;
        }
        if i > 0 && (live > 0 || state.marks[i] == 1) {
            live_children[program.parent_word(i) as usize] += 1;
        }
    }
    true
}
