//! The papers that the benchmark reads and writes as files.

use crate::expression::Expressions;
use crate::papers;
use crate::program::{Program, MOST_CHANS, MOST_EXPRS, MOST_NODES, MOST_VARS};
use crate::reference;
use crate::statement::Statement::{self, Asg, Dly, If, In, Out, Par};

pub struct FileWorkload {
    pub name: &'static str,
    pub program: Program,
    pub values: Vec<u16>,
    pub file: Vec<u8>,
}

pub fn files() -> Vec<FileWorkload> {
    let counter = papers::counter_file();
    let exam = super::exam_paper();
    let largest = largest();
    let values = (0..largest.vars).collect();
    vec![
        file_workload("counter of 12 bits", counter.program, counter.values),
        file_workload("exam paper", exam.program, exam.start.values),
        file_workload("largest paper", largest, values),
    ]
}

fn file_workload(name: &'static str, program: Program, values: Vec<u16>) -> FileWorkload {
    let file = reference::bytes(&program, &values);
    FileWorkload {
        name,
        program,
        values,
        file,
    }
}

/// As large as check accepts. An IF is the first node and an ASG the last, so that both can have a
/// fault of 4.
pub fn largest() -> Program {
    let mut exprs = Expressions::new();
    for e in 0..MOST_EXPRS as u16 {
        match e % 3 {
            0 => exprs.number(e),
            1 => exprs.variable(e % MOST_VARS),
            _ => exprs.push(2 + e / 3 % 6, e - 1, e / 2),
        };
    }
    let leaves = (2..MOST_NODES as u16).map(leaf).collect();
    let root = If(0, vec![Par(leaves)]);
    Program::new(exprs, root, MOST_VARS, MOST_CHANS)
}

fn leaf(i: u16) -> Statement {
    match i % 4 {
        0 => Dly,
        1 => In(i % MOST_CHANS, i % MOST_VARS),
        2 => Out(i % MOST_CHANS, i),
        _ => Asg(i % MOST_VARS, i),
    }
}
