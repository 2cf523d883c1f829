//! All the questions, and the cycles.

use super::begin::lengths_right;
use super::check::check;
use super::evaluate::evaluate;
use super::tree::Tree;
use super::walk::Walk;
use super::well_formed::well_formed;
use super::widths::kept;
use crate::answer::Answer;
use crate::climb::Climb;
use crate::program::{Program, State, ASG, DLY, IN, OUT};

/// The answer, the cycles worked, and the state as the call leaves it.
pub fn run(
    program: &Program,
    state: &State,
    schedule: &[u16],
    cycles: u16,
) -> (Answer, u16, State) {
    let checked = check(program);
    if checked.number != 0 {
        return (checked, 0, state.clone());
    }
    if !lengths_right(program, &state.values, &state.marks, &state.counts) {
        return (Answer::without_item(5), 0, state.clone());
    }
    if !well_formed(program, state) {
        return (Answer::without_item(6), 0, state.clone());
    }
    let tree = Tree::of(program);
    let mut state = state.clone();
    let mut left = schedule;
    let mut worked = 0;
    while worked < cycles && state.marks.contains(&1) {
        let m = state.marked().len();
        let (entries, later) = left.split_at(m.min(left.len()));
        match cycle(program, &tree, &state, entries) {
            Ok((_, next)) => state = next,
            Err(number) => return (Answer::without_item(number), worked, state),
        }
        left = later;
        worked += 1;
    }
    (Answer::without_item(0), worked, state)
}

/// One cycle by these entries: the climbs of those that complete, in the order of the entries, and the
/// state that the cycle leaves; or the number that refuses it. The program is accepted, and questions
/// 5 and 6 let the state by.
pub fn climbs(
    program: &Program,
    state: &State,
    entries: &[u16],
) -> Result<(Vec<Climb>, State), u16> {
    cycle(program, &Tree::of(program), state, entries)
}

fn cycle(
    program: &Program,
    tree: &Tree,
    state: &State,
    entries: &[u16],
) -> Result<(Vec<Climb>, State), u16> {
    let marked = state.marked();
    if !each_once(&marked, entries) {
        return Err(7);
    }
    if channel_conflict(program, &marked) {
        return Err(8);
    }
    let stores = stores(program, &marked, &evaluate(program, &state.values));
    if write_conflict(&stores) {
        return Err(9);
    }
    let mut values = state.values.clone();
    for (variable, value) in stores {
        values[variable as usize] = kept(program, variable, value);
    }
    let mut walk = Walk {
        program,
        tree,
        results: &evaluate(program, &values),
        marks: vec![0; state.marks.len()],
        counts: state.counts.clone(),
    };
    let climbs = visit(&mut walk, &marked, entries)?;
    let (marks, counts) = (walk.marks, walk.counts);
    let after = State {
        values,
        marks,
        counts,
    };
    Ok((climbs, after))
}

/// Entry after entry: one that completes is left, and one that waits is marked again.
fn visit(walk: &mut Walk, marked: &[usize], entries: &[u16]) -> Result<Vec<Climb>, u16> {
    let mut climbs = Vec::new();
    for &entry in entries {
        let i = entry as usize;
        if completes(walk.program, marked, i) {
            let turns = walk.leave(i).map_err(|_| 10_u16)?;
            climbs.push(Climb { entry, turns });
        } else {
            walk.marks[i] = 1;
        }
    }
    Ok(climbs)
}

fn each_once(marked: &[usize], entries: &[u16]) -> bool {
    let times = |i: usize| entries.iter().filter(|&&entry| entry as usize == i).count();
    entries.len() == marked.len() && marked.iter().all(|&i| times(i) == 1)
}

fn channel_conflict(program: &Program, marked: &[usize]) -> bool {
    let ends_of = |kind: u16, channel: u16| {
        marked
            .iter()
            .filter(|&&i| program.kind(i) == kind && program.a(i) == channel)
            .count()
    };
    marked.iter().any(|&i| match program.kind(i) {
        IN | OUT => ends_of(program.kind(i), program.a(i)) > 1,
        _ => false,
    })
}

/// The marked statement at the other end of the channel of i.
fn partner(program: &Program, marked: &[usize], i: usize) -> Option<usize> {
    let other = if program.kind(i) == IN { OUT } else { IN };
    marked
        .iter()
        .copied()
        .find(|&j| program.kind(j) == other && program.a(j) == program.a(i))
}

fn completes(program: &Program, marked: &[usize], i: usize) -> bool {
    match program.kind(i) {
        ASG | DLY => true,
        _ => partner(program, marked, i).is_some(),
    }
}

/// Variable and value of every completing ASG and IN.
fn stores(program: &Program, marked: &[usize], results: &[u16]) -> Vec<(u16, u16)> {
    let mut list = Vec::new();
    for &i in marked {
        match program.kind(i) {
            ASG => list.push((program.a(i), results[program.b(i) as usize])),
            IN => {
                if let Some(out) = partner(program, marked, i) {
                    list.push((program.b(i), results[program.b(out) as usize]));
                }
            }
            _ => {}
        }
    }
    list
}

fn write_conflict(stores: &[(u16, u16)]) -> bool {
    (0..stores.len()).any(|x| (0..x).any(|y| stores[x].0 == stores[y].0))
}
