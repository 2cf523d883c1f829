//! Schedules, or books, found by running the reference cycle by cycle.

use crate::program::{Program, State};
use crate::random::Random;
use crate::reference::run;

/// The entries of each cycle, in random order. The last cycle may be one that is refused for
/// another reason than its entries.
pub fn right_schedule(
    random: &mut Random,
    program: &Program,
    state: &State,
    cycles: usize,
) -> Vec<Vec<u16>> {
    let mut list = Vec::new();
    let mut state = state.clone();
    for _ in 0..cycles {
        let mut entries = state.entries();
        if entries.is_empty() {
            break;
        }
        random.shuffle(&mut entries);
        list.push(entries.clone());
        let (answer, _, next) = run(program, &state, &entries, 1);
        if answer.number != 0 {
            break;
        }
        state = next;
    }
    list
}

/// One flaw somewhere; it may stand after the last cycle that is worked.
pub fn flawed_schedule(random: &mut Random, program: &Program, right: &[Vec<u16>]) -> Vec<u16> {
    let mut cycles = right.to_vec();
    let n = program.node_count();
    if cycles.is_empty() {
        return vec![random.below(n + 1) as u16];
    }
    let k = random.below(cycles.len());
    let entries = &mut cycles[k];
    let at = random.below(entries.len());
    match random.below(8) {
        0 => entries[at] = random.pick(&[n as u16, n as u16 + 1, 1024, 65535]),
        1 => entries[at] = random.below(n) as u16,
        2 => entries[at] = entries[random.below(entries.len())],
        3 => entries.insert(at, entries[at]),
        4 => entries.insert(at, random.below(n + 1) as u16),
        5 => {
            entries.remove(at);
        }
        6 => {
            // The schedule ends inside cycle k.
            entries.truncate(at);
            cycles.truncate(k + 1);
        }
        _ => {
            // Right nodes in the wrong cycle.
            if k == 0 {
                entries[at] = entries[at].wrapping_add(1);
            } else {
                cycles.swap(k - 1, k);
            }
        }
    }
    cycles.concat()
}

/// A schedule for a run of so many cycles: most often right, else flawed, or with later entries.
pub fn schedule(random: &mut Random, program: &Program, state: &State, cycles: usize) -> Vec<u16> {
    let right = right_schedule(random, program, state, cycles);
    match random.below(10) {
        0..=5 => right.concat(),
        6 => {
            let mut list = right.concat();
            let more = random.between(1, 4);
            list.extend((0..more).map(|_| random.word()));
            list
        }
        _ => flawed_schedule(random, program, &right),
    }
}
