//! Parents, children and depth, as the ends define them. The parent words are not read here:
//! question 3 compares them with the parents found.

use crate::program::Program;

pub struct Tree {
    pub parents: Vec<Option<usize>>,
    pub children: Vec<Vec<usize>>,
}

impl Tree {
    pub fn of(program: &Program) -> Tree {
        let n = program.node_count();
        let parents: Vec<Option<usize>> = (0..n).map(|i| parent(program, i)).collect();
        let children = (0..n)
            .map(|i| (0..n).filter(|&c| parents[c] == Some(i)).collect())
            .collect();
        Tree { parents, children }
    }

    /// The node itself, then its parent, and so on up.
    pub fn upwards(&self, i: usize) -> Vec<usize> {
        let mut list = vec![i];
        let mut at = i;
        while let Some(h) = self.parents[at] {
            list.push(h);
            at = h;
        }
        list
    }

    pub fn depth(&self, i: usize) -> usize {
        self.upwards(i).len()
    }
}

/// The greatest node below i whose end is above i.
fn parent(program: &Program, i: usize) -> Option<usize> {
    (0..i).rev().find(|&h| program.end(h) > i)
}
