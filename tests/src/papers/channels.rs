//! Papers with a channel.

use super::{state, Paper, Run};
use crate::expression::Expressions;
use crate::program::Program;
use crate::statement::Statement::{Asg, Dly, In, Out, Par, Seq};

/// PAR{IN c0 v0; a sequence of DLY and OUT c0 5}
pub fn delayed_out() -> Paper {
    let mut exprs = Expressions::new();
    let five = exprs.number(5);
    let root = Par(vec![In(0, 0), Seq(vec![Dly, Out(0, five)])]);
    let program = Program::new(exprs, root, 1, 1);
    let start = state(&program, &[0], &[1, 3], &[(0, 2)]);
    let one_later = state(&program, &[0], &[1, 4], &[(0, 2)]);
    let ended = state(&program, &[5], &[], &[]);
    let run = |schedule: Vec<u16>, cycles: u16, worked: u16, after| Run {
        schedule,
        cycles,
        number: 0,
        worked,
        after,
    };
    Paper {
        name: "an OUT one cycle after its IN",
        values: vec![0],
        begin: 0,
        start,
        runs: vec![
            run(vec![1, 3], 1, 1, one_later),
            run(vec![1, 3, 1, 4], 2, 2, ended.clone()),
            run(vec![1, 3, 1, 4], 5, 2, ended),
        ],
        program,
    }
}

/// PAR of two IN on c0.
pub fn two_in_on_one_channel() -> Paper {
    let program = Program::new(Expressions::new(), Par(vec![In(0, 0), In(0, 1)]), 2, 1);
    let start = state(&program, &[0, 0], &[1, 2], &[(0, 2)]);
    Paper {
        name: "two IN on one channel",
        values: vec![0, 0],
        begin: 0,
        runs: vec![Run {
            schedule: vec![1, 2],
            cycles: 5,
            number: 8,
            worked: 0,
            after: start.clone(),
        }],
        start,
        program,
    }
}

/// PAR{IN c0 v0; v0:=1}, where the IN waits and so does not store: one of the slips that the rules
/// document warns of.
pub fn waiting_in_is_no_store() -> Paper {
    let mut exprs = Expressions::new();
    let one = exprs.number(1);
    let program = Program::new(exprs, Par(vec![In(0, 0), Asg(0, one)]), 1, 1);
    let start = state(&program, &[0], &[1, 2], &[(0, 2)]);
    let waiting = state(&program, &[1], &[1], &[(0, 1)]);
    Paper {
        name: "a waiting IN beside a store",
        values: vec![0],
        begin: 0,
        start,
        runs: vec![Run {
            schedule: vec![1, 2, 1, 1, 1, 1],
            cycles: 5,
            number: 0,
            worked: 5,
            after: waiting,
        }],
        program,
    }
}
