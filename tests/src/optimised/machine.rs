//! The cycles of a run. The entries of a cycle, once question 7 lets them by, are the list of its
//! active statements, so that no other list is kept.

use super::channels::Channels;
use super::compile::formulas;
use super::nodes::{nodes, Kind};
use super::stores::Stores;
use super::walk::{Walk, ZeroTimeLoop};
use crate::program::Program;

pub struct Machine<'a> {
    walk: Walk<'a>,
    channels: Channels,
    stores: Stores,
    /// The marked IN of this cycle.
    inputs: Vec<u16>,
}

impl<'a> Machine<'a> {
    /// The program is accepted, the state well formed.
    pub fn load(
        program: &Program,
        values: &[u16],
        marks: &'a mut [u8],
        counts: &'a mut [u16],
        compiled: bool,
    ) -> Machine<'a> {
        let formulas = formulas(program, values);
        let walk = Walk {
            nodes: nodes(program, &formulas, compiled),
            formulas,
            active: marks.iter().filter(|&&mark| mark == 1).count(),
            marks,
            counts,
        };
        Machine {
            walk,
            channels: Channels::new(program.chans),
            stores: Stores::new(&program.widths),
            inputs: Vec::with_capacity(program.node_count()),
        }
    }

    pub fn values(&self) -> &[u16] {
        self.walk.formulas.variables()
    }

    pub fn marks(&self) -> &[u8] {
        self.walk.marks
    }

    /// The number and the cycles worked.
    pub fn run(&mut self, schedule: &[u16], cycles: u16) -> (u16, u16) {
        let mut left = schedule;
        for worked in 0..cycles {
            if self.walk.active == 0 {
                return (0, worked);
            }
            let Some((entries, later)) = left.split_at_checked(self.walk.active) else {
                return (7, worked);
            };
            let number = self.cycle(entries);
            if number != 0 {
                return (number, worked);
            }
            left = later;
        }
        (0, cycles)
    }

    /// Works a cycle with as many entries as marks. A number other than 0 refuses it, and no cycle
    /// is to follow.
    pub fn cycle(&mut self, entries: &[u16]) -> u16 {
        let taken = self.take(entries);
        let number = self.refusal(taken < entries.len());
        if number != 0 {
            self.walk.mark_again(&entries[..taken]);
            return number;
        }
        self.store();
        if self.visit(entries).is_err() {
            self.stores.swap(self.walk.formulas.variables_mut());
            self.walk.undo(entries);
            return 10;
        }
        0
    }

    /// Clears the mark of each entry and notes what it does in this cycle, up to the first entry
    /// that has no mark or none any more. Gives the number of entries before it.
    fn take(&mut self, entries: &[u16]) -> usize {
        self.channels.next_cycle();
        self.stores.next_cycle();
        self.inputs.clear();
        for (at, &entry) in entries.iter().enumerate() {
            if !self.walk.clear(entry) {
                return at;
            }
            self.note(entry);
        }
        entries.len()
    }

    #[inline]
    fn note(&mut self, leaf: u16) {
        let node = self.walk.nodes[leaf as usize];
        match node.kind {
            Kind::Asg => {
                let value = self.walk.formulas.value(node.b);
                self.stores.add(node.a, value);
            }
            Kind::In => {
                self.channels.add_input(node.a);
                self.inputs.push(leaf);
            }
            Kind::Out => self.channels.add_output(node.a, node.b),
            _ => {}
        }
    }

    /// The first no of questions 7 to 9, or 0.
    fn refusal(&mut self, entries_wrong: bool) -> u16 {
        if entries_wrong {
            return 7;
        }
        if self.channels.crowded {
            return 8;
        }
        self.receive();
        if self.stores.clash {
            return 9;
        }
        0
    }

    /// Adds the stores of the completing IN; all OUT are known only now.
    fn receive(&mut self) {
        for &input in &self.inputs {
            let node = self.walk.nodes[input as usize];
            if let Some(sent) = self.channels.sent(node.a) {
                let value = self.walk.formulas.value(sent);
                self.stores.add(node.b, value);
            }
        }
    }

    fn store(&mut self) {
        let formulas = &mut self.walk.formulas;
        if self.stores.swap(formulas.variables_mut()) {
            formulas.forget();
        }
    }

    fn visit(&mut self, entries: &[u16]) -> Result<(), ZeroTimeLoop> {
        self.walk.active = 0;
        for &entry in entries {
            if self.completes(entry) {
                self.walk.leave(entry)?;
            } else {
                self.walk.mark(entry);
            }
        }
        Ok(())
    }

    #[inline]
    fn completes(&self, leaf: u16) -> bool {
        let node = self.walk.nodes[leaf as usize];
        match node.kind {
            Kind::In => self.channels.has_output(node.a),
            Kind::Out => self.channels.has_input(node.a),
            _ => true,
        }
    }
}
