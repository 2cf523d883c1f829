//! Entering and leaving nodes, on the lent marks and counts.

use super::formulas::Formulas;
use super::nodes::{After, Entry, Kind, Node};

pub struct ZeroTimeLoop;

#[derive(PartialEq, Eq)]
pub enum Outcome {
    Finished,
    Stays,
}

use Outcome::{Finished, Stays};

pub struct Walk<'a> {
    pub nodes: Vec<Node>,
    pub formulas: Formulas,
    pub marks: &'a mut [u8],
    pub counts: &'a mut [u16],
    /// How many marks stand.
    pub active: usize,
}

impl Walk<'_> {
    #[inline]
    pub fn mark(&mut self, i: u16) {
        self.marks[i as usize] = 1;
        self.active += 1;
    }

    /// Takes a mark away; false if there is none.
    #[inline]
    pub fn clear(&mut self, i: u16) -> bool {
        match self.marks.get_mut(i as usize) {
            Some(mark) => std::mem::take(mark) == 1,
            None => false,
        }
    }

    #[inline]
    fn enter(&mut self, i: u16) -> Result<Outcome, ZeroTimeLoop> {
        match self.nodes[i as usize].entry {
            Entry::Mark(leaf) => {
                self.mark(leaf);
                Ok(Stays)
            }
            Entry::Finish => Ok(Finished),
            Entry::Walk => self.enter_by_kind(i),
        }
    }

    #[inline(never)]
    fn enter_by_kind(&mut self, i: u16) -> Result<Outcome, ZeroTimeLoop> {
        let node = self.nodes[i as usize];
        match node.kind {
            Kind::Seq => self.enter_in_turn(i + 1, node.end),
            Kind::Par => self.enter_threads(i, node),
            Kind::If => self.enter_choice(i, node),
            Kind::Whl if self.holds(node) => self.enter_body(i),
            Kind::Whl => Ok(Finished),
            // A leaf's entry is its mark.
            Kind::Asg | Kind::In | Kind::Out | Kind::Dly => Ok(Stays),
        }
    }

    fn enter_in_turn(&mut self, first: u16, end: u16) -> Result<Outcome, ZeroTimeLoop> {
        let mut child = first;
        while child < end {
            if self.enter(child)? == Stays {
                return Ok(Stays);
            }
            child = self.nodes[child as usize].end;
        }
        Ok(Finished)
    }

    fn enter_threads(&mut self, i: u16, node: Node) -> Result<Outcome, ZeroTimeLoop> {
        let mut count = node.children;
        let mut child = i + 1;
        while child < node.end {
            if self.enter(child)? == Finished {
                count -= 1;
            }
            child = self.nodes[child as usize].end;
        }
        self.counts[i as usize] = count;
        Ok(if count == 0 { Finished } else { Stays })
    }

    fn enter_choice(&mut self, i: u16, node: Node) -> Result<Outcome, ZeroTimeLoop> {
        let first = i + 1;
        if self.holds(node) {
            return self.enter(first);
        }
        let second = self.nodes[first as usize].end;
        self.enter_in_turn(second, node.end)
    }

    fn enter_body(&mut self, whl: u16) -> Result<Outcome, ZeroTimeLoop> {
        match self.enter(whl + 1)? {
            Stays => Ok(Stays),
            Finished => Err(ZeroTimeLoop),
        }
    }

    #[inline]
    pub fn leave(&mut self, i: u16) -> Result<(), ZeroTimeLoop> {
        let mut left = i;
        while let Some(next) = self.leave_one(left)? {
            left = next;
        }
        Ok(())
    }

    /// One step of leaving, and the node to be left after it.
    #[inline]
    fn leave_one(&mut self, i: u16) -> Result<Option<u16>, ZeroTimeLoop> {
        let after = self.nodes[i as usize].after;
        match after {
            After::Stop => Ok(None),
            After::Mark(leaf) => {
                self.mark(leaf);
                Ok(None)
            }
            After::Enter(next) => Ok((self.enter(next)? == Finished).then_some(next)),
            After::Again(whl) if self.holds(self.nodes[whl as usize]) => {
                self.enter_body(whl).map(|_| None)
            }
            After::Again(whl) => Ok(Some(whl)),
            After::Thread(par) => {
                let count = &mut self.counts[par as usize];
                *count -= 1;
                Ok((*count == 0).then_some(par))
            }
        }
    }

    #[inline]
    fn holds(&mut self, node: Node) -> bool {
        self.formulas.value(node.a) != 0
    }
}
