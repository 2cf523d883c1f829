//! Papers as files, their bytes written out by hand: a line for each record, then one for the values,
//! one for the widths, and the trailer's counts and distances.

use super::first_fault::{FAULTY_SOURCES, STORES};
use super::widths::counter;
use crate::expression::Expressions;
use crate::program::Program;
use crate::statement::Statement::{Asg, Dly, In, Out, Par};

/// A program with its values, and the file that has both.
pub struct PaperFile {
    pub name: &'static str,
    pub program: Program,
    pub values: Vec<u16>,
    pub bytes: &'static [u8],
}

pub fn files() -> Vec<PaperFile> {
    vec![delay_file(), counter_file(), input_file()]
}

#[rustfmt::skip]
const DELAY: [u8; 26] = [
    8, 0, 0xff, 0xff, 1, 0, 0, 0, 0, 0,
    1, 0, 0, 0, 0, 0, 0, 0,
    5, 0, 5, 0, 0, 0, 0, 0,
];

/// DLY: no expression and no variable, so that three parts are empty.
pub fn delay_file() -> PaperFile {
    PaperFile {
        name: "a delay alone",
        program: Program::new(Expressions::new(), Dly, 0, 0),
        values: vec![],
        bytes: &DELAY,
    }
}

#[rustfmt::skip]
const COUNTER: [u8; 58] = [
    0, 0, 1, 0, 0, 0,
    1, 0, 0, 0, 0, 0,
    2, 0, 1, 0, 0, 0,
    7, 0, 0xff, 0xff, 2, 0, 0, 0, 0, 0,
    3, 0, 0, 0, 2, 0, 0, 0, 2, 0,
    0xfe, 0x0f,
    12, 0,
    2, 0, 3, 0, 1, 0, 0, 0,
    21, 0, 12, 0, 2, 0, 1, 0,
];

/// WHL 1 {v0:=v0+1}, where v0 has 12 bits and the value 4,094.
pub fn counter_file() -> PaperFile {
    PaperFile {
        name: "a counter of 12 bits",
        program: counter(&[12]),
        values: vec![4094],
        bytes: &COUNTER,
    }
}

#[rustfmt::skip]
const INPUT: [u8; 82] = [
    1, 0, 1, 0, 0, 0,
    0, 0, 4, 0, 0, 0,
    2, 0, 0, 0, 1, 0,
    2, 0, 0xff, 0xff, 4, 0, 0, 0, 0, 0,
    5, 0, 0, 0, 2, 0, 0, 0, 2, 0,
    4, 0, 0, 0, 3, 0, 0, 0, 0, 0,
    3, 0, 0, 0, 4, 0, 1, 0, 2, 0,
    0x2c, 0x01, 5, 0,
    1, 0, 16, 0,
    4, 0, 3, 0, 2, 0, 1, 0,
    33, 0, 24, 0, 4, 0, 2, 0,
];

/// PAR{OUT c0 v1+4; IN c0 v0; v1:=v1+4}, where v0 has one bit and the value 300, which is too wide,
/// and v1 has 16 bits and the value 5.
pub fn input_file() -> PaperFile {
    let mut exprs = Expressions::new();
    let v1 = exprs.variable(1);
    let four = exprs.number(4);
    let sent = exprs.sum(v1, four);
    let root = Par(vec![Out(0, sent), In(0, 0), Asg(1, sent)]);
    PaperFile {
        name: "an input of one bit",
        program: Program::new(exprs, root, 2, 1).with_widths(&[1, 16]),
        values: vec![300, 5],
        bytes: &INPUT,
    }
}

/// Of two faulty expressions, with nodes for more variables; variables and channels are as many as those
/// of the input, with its widths.
pub fn refused_program() -> Program {
    Program {
        exprs: FAULTY_SOURCES.concat(),
        nodes: STORES.concat(),
        widths: vec![1, 16],
        vars: 2,
        chans: 1,
    }
}
