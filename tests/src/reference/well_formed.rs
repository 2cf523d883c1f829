//! Question 6.

use super::tree::Tree;
use super::widths::values_fit;
use crate::program::{Program, State, PAR};

/// The program is accepted and the lists are as long as they should be.
pub fn well_formed(program: &Program, state: &State) -> bool {
    let State {
        values,
        marks,
        counts,
    } = state;
    let tree = Tree::of(program);
    let n = program.node_count();
    let marked: Vec<usize> = (0..n).filter(|&i| marks[i] != 0).collect();
    // From each marked leaf up to node 0.
    let paths: Vec<Vec<usize>> = marked.iter().map(|&i| tree.upwards(i)).collect();
    values_fit(program, values)
        && marks.iter().all(|&mark| mark == 0 || mark == 1)
        && marked.iter().all(|&i| program.is_leaf(i))
        && pairs_meet_in_par(program, &paths)
        && (0..n).all(|i| counts[i] as usize == right_count(program, &tree, &paths, i))
}

fn pairs_meet_in_par(program: &Program, paths: &[Vec<usize>]) -> bool {
    (0..paths.len())
        .all(|x| (0..x).all(|y| program.kind(lowest_common(&paths[x], &paths[y])) == PAR))
}

fn lowest_common(one: &[usize], other: &[usize]) -> usize {
    *one.iter()
        .find(|h| other.contains(h))
        .expect("node 0 is above every node of an accepted program")
}

fn right_count(program: &Program, tree: &Tree, paths: &[Vec<usize>], i: usize) -> usize {
    if program.kind(i) != PAR {
        return 0;
    }
    let marked_below = |child: &&usize| paths.iter().any(|path| path.contains(child));
    tree.children[i].iter().filter(marked_below).count()
}
