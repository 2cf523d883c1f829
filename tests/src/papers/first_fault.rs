//! A paper with two faults of each question that comes with an item, which is mended from the top.

use super::{state, Refusal};
use crate::program::Program;

/// The expressions of PAR{v0:=1; v1:=v0; v2:=v3}.
const SOURCES: [[u16; 3]; 3] = [[0, 1, 0], [1, 0, 0], [1, 3, 0]];

/// Expression 1 is a variable that is not there, and expression 2 has itself for an operand.
pub(super) const FAULTY_SOURCES: [[u16; 3]; 3] = [[0, 1, 0], [1, 4, 0], [2, 2, 0]];

/// The nodes.
pub(super) const STORES: [[u16; 5]; 4] = [
    [2, 65535, 4, 0, 0],
    [3, 0, 2, 0, 0],
    [3, 0, 3, 1, 1],
    [3, 0, 4, 2, 2],
];

/// Node 1 stores to v4, and node 2 stores an expression that is not there.
const FAULTY_NAMES: [[u16; 5]; 4] = [
    [2, 65535, 4, 0, 0],
    [3, 0, 2, 4, 0],
    [3, 0, 3, 1, 3],
    [3, 0, 4, 2, 2],
];

/// The same, and node 2 has another parent, and node 3 has no kind.
const FAULTY_NODES: [[u16; 5]; 4] = [
    [2, 65535, 4, 0, 0],
    [3, 0, 2, 4, 0],
    [3, 1, 3, 1, 3],
    [99, 0, 4, 2, 2],
];

/// Those of v2 and v3 are bad.
const FAULTY_WIDTHS: [u16; 4] = [16, 1, 17, 0];

/// Refused by all three calls, with this number and item.
fn refused(
    name: &'static str,
    exprs: &[u16],
    nodes: [[u16; 5]; 4],
    widths: &[u16],
    number: u16,
    item: u16,
) -> Refusal {
    let program = Program {
        exprs: exprs.to_vec(),
        nodes: nodes.concat(),
        widths: widths.to_vec(),
        vars: 4,
        chans: 0,
    };
    let state = state(&program, &[0; 4], &[1, 2, 3], &[(0, 3)]);
    Refusal {
        name,
        program,
        state,
        numbers: [number; 3],
        item,
    }
}

pub fn first_faults() -> Vec<Refusal> {
    let sources = SOURCES.concat();
    let faulty = FAULTY_SOURCES.concat();
    let one_more = [&faulty[..], &[0]].concat();
    let bad = &FAULTY_WIDTHS;
    vec![
        refused("two faults of each", &faulty, FAULTY_NODES, bad, 2, 1),
        refused("expressions mended", &sources, FAULTY_NODES, bad, 3, 2),
        refused("nodes mended", &sources, FAULTY_NAMES, bad, 4, 1),
        refused("names mended", &sources, STORES, bad, 11, 2),
        refused("five widths", &sources, STORES, &[16, 1, 17, 0, 16], 11, 0),
        refused("three widths", &sources, STORES, &[16, 17, 0], 11, 0),
        refused("a word too many", &one_more, STORES, bad, 1, 0),
    ]
}
