//! Papers of DLY and assignments, without loops or channels.

use super::{state, Paper, Run};
use crate::expression::Expressions;
use crate::program::{Program, State};
use crate::statement::Statement::{Asg, Dly, Par, Seq};

/// One DLY.
pub fn one_dly() -> Paper {
    let program = Program::new(Expressions::new(), Dly, 0, 0);
    let start = state(&program, &[], &[0], &[]);
    let ended = state(&program, &[], &[], &[]);
    Paper {
        name: "one DLY",
        values: vec![],
        begin: 0,
        start,
        runs: vec![Run {
            schedule: vec![0],
            cycles: 5,
            number: 0,
            worked: 1,
            after: ended,
        }],
        program,
    }
}

/// PAR{v0:=v1; v1:=v0}
fn swap_program() -> Program {
    let mut exprs = Expressions::new();
    let v0 = exprs.variable(0);
    let v1 = exprs.variable(1);
    Program::new(exprs, Par(vec![Asg(0, v1), Asg(1, v0)]), 2, 0)
}

pub fn swap() -> Paper {
    let program = swap_program();
    let start = state(&program, &[3, 7], &[1, 2], &[(0, 2)]);
    let ended = state(&program, &[7, 3], &[], &[]);
    let run = |schedule: Vec<u16>| Run {
        schedule,
        cycles: 5,
        number: 0,
        worked: 1,
        after: ended.clone(),
    };
    Paper {
        name: "swap, either order",
        values: vec![3, 7],
        begin: 0,
        start,
        runs: vec![run(vec![1, 2]), run(vec![2, 1])],
        program,
    }
}

pub fn swap_wrong_book() -> Paper {
    let program = swap_program();
    let start = state(&program, &[3, 7], &[1, 2], &[(0, 2)]);
    let run = |schedule: Vec<u16>| Run {
        schedule,
        cycles: 5,
        number: 7,
        worked: 0,
        after: start.clone(),
    };
    Paper {
        name: "swap, wrong books",
        values: vec![3, 7],
        begin: 0,
        runs: vec![run(vec![1, 1]), run(vec![1])],
        start,
        program,
    }
}

/// PAR{v0:=p; v0:=q}
fn conflict(name: &'static str, p: u16, q: u16) -> Paper {
    let mut exprs = Expressions::new();
    let left = exprs.number(p);
    let right = exprs.number(q);
    let program = Program::new(exprs, Par(vec![Asg(0, left), Asg(0, right)]), 1, 0);
    let start = state(&program, &[0], &[1, 2], &[(0, 2)]);
    Paper {
        name,
        values: vec![0],
        begin: 0,
        runs: vec![Run {
            schedule: vec![1, 2],
            cycles: 5,
            number: 9,
            worked: 0,
            after: start.clone(),
        }],
        start,
        program,
    }
}

pub fn equal_values_conflict() -> Paper {
    conflict("two stores of equal values", 1, 1)
}

/// One of the slips that the rules document warns of.
pub fn unequal_values_conflict() -> Paper {
    conflict("two stores of unequal values", 1, 2)
}

/// PAR{v0:=65535+1; v1:=0-1}. The values start as other numbers, so that both stores show.
pub fn wrapping() -> Paper {
    let mut exprs = Expressions::new();
    let most = exprs.number(65535);
    let one = exprs.number(1);
    let zero = exprs.number(0);
    let sum = exprs.sum(most, one);
    let difference = exprs.difference(zero, one);
    let program = Program::new(exprs, Par(vec![Asg(0, sum), Asg(1, difference)]), 2, 0);
    let start = state(&program, &[9, 9], &[1, 2], &[(0, 2)]);
    let ended = state(&program, &[0, 65535], &[], &[]);
    Paper {
        name: "65,535+1 is 0 and 0-1 is 65,535",
        values: vec![9, 9],
        begin: 0,
        start,
        runs: vec![Run {
            schedule: vec![1, 2],
            cycles: 5,
            number: 0,
            worked: 1,
            after: ended,
        }],
        program,
    }
}

pub fn zero_cycles() -> Paper {
    let program = swap_program();
    let start = state(&program, &[3, 7], &[1, 2], &[(0, 2)]);
    Paper {
        name: "zero cycles asked",
        values: vec![3, 7],
        begin: 0,
        runs: vec![Run {
            schedule: vec![],
            cycles: 0,
            number: 0,
            worked: 0,
            after: start.clone(),
        }],
        start,
        program,
    }
}

/// SEQ{PAR{DLY; SEQ{DLY; DLY}}; DLY}. The first thread is over after one cycle and the second after
/// two; only then comes the last DLY, node 6.
pub fn uneven_threads() -> Paper {
    let threads = Par(vec![Dly, Seq(vec![Dly, Dly])]);
    let program = Program::new(Expressions::new(), Seq(vec![threads, Dly]), 0, 0);
    let start = state(&program, &[], &[2, 4], &[(1, 2)]);
    let one_thread = state(&program, &[], &[5], &[(1, 1)]);
    let past_the_par = state(&program, &[], &[6], &[]);
    let ended = state(&program, &[], &[], &[]);
    let run = |schedule: Vec<u16>, cycles: u16, worked: u16, after: &State| Run {
        schedule,
        cycles,
        number: 0,
        worked,
        after: after.clone(),
    };
    Paper {
        name: "a PAR with one thread longer than the other",
        values: vec![],
        begin: 0,
        start,
        runs: vec![
            run(vec![2, 4], 1, 1, &one_thread),
            run(vec![4, 2], 1, 1, &one_thread),
            run(vec![2, 4, 5], 2, 2, &past_the_par),
            run(vec![4, 2, 5, 6], 5, 3, &ended),
        ],
        program,
    }
}
