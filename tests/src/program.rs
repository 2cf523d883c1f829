//! The lists that the calls take. Any lists can be held, also ones that no call accepts.

use crate::expression::Expressions;
use crate::statement::Statement;

pub const SEQ: u16 = 1;
pub const PAR: u16 = 2;
pub const ASG: u16 = 3;
pub const IN: u16 = 4;
pub const OUT: u16 = 5;
pub const IF: u16 = 6;
pub const WHL: u16 = 7;
pub const DLY: u16 = 8;

pub const MOST_NODES: usize = 1024;
pub const MOST_EXPRS: usize = 1024;
pub const MOST_VARS: u16 = 256;
pub const MOST_CHANS: u16 = 256;
pub const MOST_DEPTH: usize = 32;
/// In bits.
pub const MOST_WIDTH: u16 = 16;

/// What node 0 has in place of a parent.
pub const NO_PARENT: u16 = 65535;

#[derive(Clone, Debug, PartialEq, Eq)]
pub struct Program {
    pub exprs: Vec<u16>,
    pub nodes: Vec<u16>,
    pub widths: Vec<u16>,
    pub vars: u16,
    pub chans: u16,
}

#[derive(Clone, Debug, PartialEq, Eq)]
pub struct State {
    pub values: Vec<u16>,
    pub marks: Vec<u8>,
    pub counts: Vec<u16>,
}

impl Program {
    /// Each variable is as wide as can be, so that a store keeps all of a value.
    pub fn new(exprs: Expressions, root: Statement, vars: u16, chans: u16) -> Program {
        Program {
            exprs: exprs.list,
            nodes: root.nodes(),
            widths: vec![MOST_WIDTH; vars as usize],
            vars,
            chans,
        }
    }

    pub fn with_widths(self, widths: &[u16]) -> Program {
        Program {
            widths: widths.to_vec(),
            ..self
        }
    }

    pub fn expr_count(&self) -> usize {
        self.exprs.len() / 3
    }

    pub fn node_count(&self) -> usize {
        self.nodes.len() / 5
    }

    pub fn op(&self, e: usize) -> u16 {
        self.exprs[3 * e]
    }

    pub fn p(&self, e: usize) -> u16 {
        self.exprs[3 * e + 1]
    }

    pub fn q(&self, e: usize) -> u16 {
        self.exprs[3 * e + 2]
    }

    pub fn kind(&self, i: usize) -> u16 {
        self.nodes[5 * i]
    }

    pub fn parent_word(&self, i: usize) -> u16 {
        self.nodes[5 * i + 1]
    }

    pub fn end(&self, i: usize) -> usize {
        self.nodes[5 * i + 2] as usize
    }

    pub fn a(&self, i: usize) -> u16 {
        self.nodes[5 * i + 3]
    }

    pub fn b(&self, i: usize) -> u16 {
        self.nodes[5 * i + 4]
    }

    pub fn is_leaf(&self, i: usize) -> bool {
        matches!(self.kind(i), ASG | IN | OUT | DLY)
    }
}

impl State {
    /// The marked nodes, ascending.
    pub fn marked(&self) -> Vec<usize> {
        (0..self.marks.len())
            .filter(|&i| self.marks[i] == 1)
            .collect()
    }

    /// The same as the entries of a cycle.
    pub fn entries(&self) -> Vec<u16> {
        self.marked().into_iter().map(|i| i as u16).collect()
    }
}
