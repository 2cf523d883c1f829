//! The stores of a cycle: first what is to be stored, then, to undo it, what stood there.

use crate::program::MOST_WIDTH;

/// What a store asks of its variable, in one place of the memory.
struct Variable {
    /// When it was last stored to; see the channels.
    stored_at: u32,
    /// The bits that a store keeps.
    mask: u16,
}

pub struct Stores {
    list: Vec<(u16, u16)>,
    variables: Vec<Variable>,
    now: u32,
    /// Whether two go to one variable.
    pub clash: bool,
}

impl Stores {
    /// The widths are from 1 to 16.
    pub fn new(widths: &[u16]) -> Stores {
        let variable = |width: &u16| Variable {
            stored_at: 0,
            mask: u16::MAX >> (MOST_WIDTH - width),
        };
        Stores {
            list: Vec::with_capacity(widths.len()),
            variables: widths.iter().map(variable).collect(),
            now: 0,
            clash: false,
        }
    }

    pub fn next_cycle(&mut self) {
        self.now += 1;
        self.list.clear();
    }

    /// A clash is not listed, so that the list has room for all: one entry for each variable.
    #[inline]
    pub fn add(&mut self, variable: u16, value: u16) {
        let to = &mut self.variables[variable as usize];
        if to.stored_at == self.now {
            self.clash = true;
        } else {
            to.stored_at = self.now;
            self.list.push((variable, value & to.mask));
        }
    }

    /// Swaps the list with the variables, and tells whether any changed. A second time it takes the
    /// stores back.
    pub fn swap(&mut self, variables: &mut [u16]) -> bool {
        let mut changed = false;
        for (variable, value) in &mut self.list {
            let at = &mut variables[*variable as usize];
            changed |= *at != *value;
            std::mem::swap(at, value);
        }
        changed
    }
}
