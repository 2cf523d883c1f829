//! Entering and leaving nodes. Values stand still during a walk, so it is given the results of
//! all expressions and not the values.

use super::tree::Tree;
use crate::climb::{Entered, Turn};
use crate::program::{Program, ASG, DLY, IF, IN, OUT, PAR, SEQ, WHL};

pub struct ZeroTimeLoop;

#[derive(PartialEq, Eq)]
pub enum Outcome {
    Finished,
    Stays,
}

use Outcome::{Finished, Stays};

/// What follows when a node is left: the child that is entered, and the node that the next turn leaves.
type Followed = (Option<Entered>, Option<usize>);

pub struct Walk<'a> {
    pub program: &'a Program,
    pub tree: &'a Tree,
    pub results: &'a [u16],
    pub marks: Vec<u8>,
    pub counts: Vec<u16>,
}

impl Walk<'_> {
    pub fn enter(&mut self, i: usize) -> Result<Outcome, ZeroTimeLoop> {
        let children = self.tree.children[i].clone();
        match self.program.kind(i) {
            ASG | IN | OUT | DLY => {
                self.marks[i] = 1;
                Ok(Stays)
            }
            SEQ => self.enter_in_turn(&children),
            IF if self.holds(i) => self.enter(children[0]),
            IF if children.len() == 2 => self.enter(children[1]),
            IF => Ok(Finished),
            WHL if self.holds(i) => self.enter_body(children[0]),
            WHL => Ok(Finished),
            PAR => self.enter_threads(i, &children),
            _ => unreachable!("only accepted programs are walked"),
        }
    }

    fn enter_in_turn(&mut self, children: &[usize]) -> Result<Outcome, ZeroTimeLoop> {
        match children {
            [] => Ok(Finished),
            [first, rest @ ..] => match self.enter(*first)? {
                Stays => Ok(Stays),
                Finished => self.enter_in_turn(rest),
            },
        }
    }

    fn enter_body(&mut self, child: usize) -> Result<Outcome, ZeroTimeLoop> {
        match self.enter(child)? {
            Stays => Ok(Stays),
            Finished => Err(ZeroTimeLoop),
        }
    }

    fn enter_threads(&mut self, i: usize, children: &[usize]) -> Result<Outcome, ZeroTimeLoop> {
        self.counts[i] = children.len() as u16;
        for &child in children {
            if self.enter(child)? == Finished {
                self.counts[i] -= 1;
            }
        }
        Ok(if self.counts[i] == 0 { Finished } else { Stays })
    }

    /// The climb from node i. Each turn leaves one node, and says which the next one leaves.
    pub fn leave(&mut self, i: usize) -> Result<Vec<Turn>, ZeroTimeLoop> {
        let mut turns = Vec::new();
        let mut next = Some(i);
        while let Some(node) = next {
            let entered;
            (entered, next) = self.turn(node)?;
            let left = node as u16;
            turns.push(Turn { left, entered });
        }
        Ok(turns)
    }

    /// One turn: node i is left, by a look at its parent.
    fn turn(&mut self, i: usize) -> Result<Followed, ZeroTimeLoop> {
        let Some(parent) = self.tree.parents[i] else {
            return Ok((None, None));
        };
        match self.program.kind(parent) {
            SEQ => self.go_on_after(parent, i),
            IF => Ok((None, Some(parent))),
            WHL if self.holds(parent) => {
                self.enter_body(i)?;
                let child = i as u16;
                Ok((Some(Entered { child, stays: true }), None))
            }
            WHL => Ok((None, Some(parent))),
            PAR => {
                self.counts[parent] -= 1;
                let over = self.counts[parent] == 0;
                Ok((None, over.then_some(parent)))
            }
            _ => unreachable!("a leaf is no parent in an accepted program"),
        }
    }

    /// The next child is entered alone. Where it finishes, leaving it is a turn of its own.
    fn go_on_after(&mut self, seq: usize, i: usize) -> Result<Followed, ZeroTimeLoop> {
        let next = self.tree.children[seq].iter().copied().find(|&c| c > i);
        let Some(next) = next else {
            return Ok((None, Some(seq)));
        };
        let stays = self.enter(next)? == Stays;
        let child = next as u16;
        Ok((Some(Entered { child, stays }), (!stays).then_some(next)))
    }

    fn holds(&self, i: usize) -> bool {
        self.results[self.program.a(i) as usize] != 0
    }
}
