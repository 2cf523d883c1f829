//! States: ones that a run reaches, well-formed ones of any origin, and damaged ones.

use super::values::{values, widen};
use crate::program::{Program, State, PAR};
use crate::random::Random;
use crate::reference::{begun, run, Tree};

/// The state some cycles after begin, or nothing if begin is refused.
pub fn reached_state(random: &mut Random, program: &Program, most: usize) -> Option<State> {
    let start = values(random, &program.widths);
    let mut state = begun(program, &start).ok()?;
    for _ in 0..random.between(0, most) {
        let entries = state.entries();
        let (answer, _, next) = run(program, &state, &entries, 1);
        if answer.number != 0 {
            break;
        }
        state = next;
    }
    Some(state)
}

/// Marks set by choosing threads at every PAR and one child elsewhere, whether or not any run
/// comes there.
pub fn well_formed_state(random: &mut Random, program: &Program) -> State {
    let n = program.node_count();
    let mut state = State {
        values: values(random, &program.widths),
        marks: vec![0; n],
        counts: vec![0; n],
    };
    if !random.percent(3) {
        mark_in(random, program, &Tree::of(program), 0, &mut state);
    }
    state
}

fn mark_in(random: &mut Random, program: &Program, tree: &Tree, i: usize, state: &mut State) {
    let children = &tree.children[i];
    if children.is_empty() {
        state.marks[i] = 1;
    } else if program.kind(i) == PAR {
        let sure = random.below(children.len());
        for (at, &child) in children.iter().enumerate() {
            if at == sure || random.percent(65) {
                state.counts[i] += 1;
                mark_in(random, program, tree, child, state);
            }
        }
    } else {
        let child = random.pick(children);
        mark_in(random, program, tree, child, state);
    }
}

/// The thread counts that go with these marks, whether or not the marks are allowed.
pub fn counts_for(program: &Program, marks: &[u8]) -> Vec<u16> {
    let tree = Tree::of(program);
    let marked_in = |child: &&usize| marks[**child..program.end(**child)].contains(&1);
    (0..program.node_count())
        .map(|i| match program.kind(i) {
            PAR => tree.children[i].iter().filter(marked_in).count() as u16,
            _ => 0,
        })
        .collect()
}

/// One change, which may leave the state well formed.
pub fn damaged_state(random: &mut Random, program: &Program, state: &mut State) {
    match random.below(15) {
        0..=3 => change_mark(random, &mut state.marks),
        4..=7 => change_count(random, &mut state.counts),
        8 => {
            change_mark(random, &mut state.marks);
            change_count(random, &mut state.counts);
        }
        9 => resize(random, &mut state.values),
        10 => resize(random, &mut state.marks),
        11 => resize(random, &mut state.counts),
        _ => widen(random, &program.widths, &mut state.values),
    }
}

fn change_mark(random: &mut Random, marks: &mut [u8]) {
    if !marks.is_empty() {
        let at = random.below(marks.len());
        marks[at] = match random.below(5) {
            0 => random.pick(&[2, 3, 128, 255]),
            _ => 1 - marks[at].min(1),
        };
    }
}

fn change_count(random: &mut Random, counts: &mut [u16]) {
    if !counts.is_empty() {
        let at = random.below(counts.len());
        counts[at] = match random.below(4) {
            0 => random.pick(&[0, 1, 2, 255, 256, 65535]),
            1 => counts[at].wrapping_sub(1),
            _ => counts[at].wrapping_add(1),
        };
    }
}

fn resize<T: Clone + Default>(random: &mut Random, list: &mut Vec<T>) {
    let length = match random.below(4) {
        0 => list.len().saturating_sub(1),
        1 => 0,
        _ => list.len() + random.between(1, 3),
    };
    list.resize(length, T::default());
}
