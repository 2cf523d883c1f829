//! Papers with WHL.

use super::{state, Paper, Run};
use crate::expression::Expressions;
use crate::program::Program;
use crate::statement::Statement::{Asg, Dly, Par, Seq, Whl};

/// WHL 1 {WHL 0 {DLY}}
pub fn loop_around_false_loop() -> Paper {
    let mut exprs = Expressions::new();
    let one = exprs.number(1);
    let zero = exprs.number(0);
    let program = Program::new(exprs, Whl(one, Box::new(Whl(zero, Box::new(Dly)))), 0, 0);
    let start = state(&program, &[], &[], &[]);
    Paper {
        name: "a true loop around a false one",
        values: vec![],
        begin: 10,
        start,
        runs: vec![],
        program,
    }
}

/// PAR of two WHL 0 {DLY}
pub fn par_of_false_loops() -> Paper {
    let mut exprs = Expressions::new();
    let zero = exprs.number(0);
    let false_loop = || Whl(zero, Box::new(Dly));
    let program = Program::new(exprs, Par(vec![false_loop(), false_loop()]), 0, 0);
    let ended = state(&program, &[], &[], &[]);
    Paper {
        name: "a PAR of two false loops",
        values: vec![],
        begin: 0,
        runs: vec![Run {
            schedule: vec![],
            cycles: 5,
            number: 0,
            worked: 0,
            after: ended.clone(),
        }],
        start: ended,
        program,
    }
}

/// WHL 1 {PAR{DLY; DLY}}
pub fn loop_around_par() -> Paper {
    let mut exprs = Expressions::new();
    let one = exprs.number(1);
    let program = Program::new(exprs, Whl(one, Box::new(Par(vec![Dly, Dly]))), 0, 0);
    let start = state(&program, &[], &[2, 3], &[(1, 2)]);
    let run = |schedule: Vec<u16>, cycles: u16| Run {
        schedule,
        cycles,
        number: 0,
        worked: cycles,
        after: start.clone(),
    };
    Paper {
        name: "a loop around a PAR",
        values: vec![],
        begin: 0,
        runs: vec![
            run(vec![2, 3], 1),
            run(vec![3, 2], 1),
            run(vec![2, 3, 3, 2, 2, 3, 2, 3, 3, 2], 5),
        ],
        start,
        program,
    }
}

/// WHL v0 {v0:=v0-1}
pub fn countdown() -> Paper {
    let mut exprs = Expressions::new();
    let v0 = exprs.variable(0);
    let one = exprs.number(1);
    let less = exprs.difference(v0, one);
    let program = Program::new(exprs, Whl(v0, Box::new(Asg(0, less))), 1, 0);
    let start = state(&program, &[1], &[1], &[]);
    let ended = state(&program, &[0], &[], &[]);
    Paper {
        name: "countdown",
        values: vec![1],
        begin: 0,
        start,
        runs: vec![Run {
            schedule: vec![1],
            cycles: 5,
            number: 0,
            worked: 1,
            after: ended,
        }],
        program,
    }
}

/// WHL 1 {SEQ{WHL v0 {v0:=0}}}
pub fn loop_becomes_zero_time() -> Paper {
    let mut exprs = Expressions::new();
    let one = exprs.number(1);
    let v0 = exprs.variable(0);
    let zero = exprs.number(0);
    let inner = Whl(v0, Box::new(Asg(0, zero)));
    let program = Program::new(exprs, Whl(one, Box::new(Seq(vec![inner]))), 1, 0);
    let start = state(&program, &[1], &[3], &[]);
    Paper {
        name: "a loop that becomes a zero-time loop",
        values: vec![1],
        begin: 0,
        runs: vec![Run {
            schedule: vec![3],
            cycles: 5,
            number: 10,
            worked: 0,
            after: start.clone(),
        }],
        start,
        program,
    }
}

/// PAR{v0:=0; WHL v0 {DLY}}. Whichever entry comes first, the loop finds the value that the other
/// thread stores in the same cycle.
pub fn stored_condition() -> Paper {
    let mut exprs = Expressions::new();
    let zero = exprs.number(0);
    let v0 = exprs.variable(0);
    let root = Par(vec![Asg(0, zero), Whl(v0, Box::new(Dly))]);
    let program = Program::new(exprs, root, 1, 0);
    let start = state(&program, &[1], &[1, 3], &[(0, 2)]);
    let ended = state(&program, &[0], &[], &[]);
    let run = |schedule: Vec<u16>| Run {
        schedule,
        cycles: 5,
        number: 0,
        worked: 1,
        after: ended.clone(),
    };
    Paper {
        name: "a condition that another thread stores",
        values: vec![1],
        begin: 0,
        start,
        runs: vec![run(vec![3, 1]), run(vec![1, 3])],
        program,
    }
}
