//! Marks and counts as they were before a refused cycle. Its entries are the marks that stood, and
//! the counts of a well-formed state follow from its marks.

use super::nodes::Kind;
use super::walk::Walk;

impl Walk<'_> {
    /// For a cycle that was refused before its walks.
    pub fn mark_again(&mut self, entries: &[u16]) {
        for &entry in entries {
            self.marks[entry as usize] = 1;
        }
    }

    /// For a cycle that was refused in a walk.
    pub fn undo(&mut self, entries: &[u16]) {
        self.marks.fill(0);
        self.mark_again(entries);
        for i in 0..self.nodes.len() {
            if let Kind::Par = self.nodes[i].kind {
                self.counts[i] = self.live_children(i);
            }
        }
    }

    fn live_children(&self, par: usize) -> u16 {
        let mut live = 0;
        let mut child = par + 1;
        while child < self.nodes[par].end as usize {
            let end = self.nodes[child].end as usize;
            live += self.marks[child..end].contains(&1) as u16;
            child = end;
        }
        live
    }
}
