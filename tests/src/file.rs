//! What the calls on files take and give beside the bytes of a file.

use crate::program::Program;

/// The counts in a trailer, all 0 where there is no right one.
#[derive(Clone, Copy, Debug, Default, PartialEq, Eq)]
pub struct Sizes {
    pub nodes: u16,
    pub exprs: u16,
    pub vars: u16,
    pub chans: u16,
}

impl Sizes {
    pub fn of(program: &Program) -> Sizes {
        Sizes {
            nodes: program.node_count() as u16,
            exprs: program.expr_count() as u16,
            vars: program.vars,
            chans: program.chans,
        }
    }
}

/// What the reader fills, a list for each part of a file. Each may be longer than its part.
#[derive(Clone, Debug, PartialEq, Eq)]
pub struct Buffers {
    pub exprs: Vec<u16>,
    pub nodes: Vec<u16>,
    pub values: Vec<u16>,
    pub widths: Vec<u16>,
}

impl Buffers {
    /// As long as the parts of a file with these counts, and filled with one word.
    pub fn filled(sizes: Sizes, word: u16) -> Buffers {
        Buffers {
            exprs: vec![word; 3 * sizes.exprs as usize],
            nodes: vec![word; 5 * sizes.nodes as usize],
            values: vec![word; sizes.vars as usize],
            widths: vec![word; sizes.vars as usize],
        }
    }

    /// The program and the values that were read into buffers with nothing to spare.
    pub fn paper(self, sizes: Sizes) -> (Program, Vec<u16>) {
        let program = Program {
            exprs: self.exprs,
            nodes: self.nodes,
            widths: self.widths,
            vars: sizes.vars,
            chans: sizes.chans,
        };
        (program, self.values)
    }

    /// In the order of the parts.
    pub fn lists(&mut self) -> [&mut Vec<u16>; 4] {
        [
            &mut self.exprs,
            &mut self.nodes,
            &mut self.values,
            &mut self.widths,
        ]
    }
}
