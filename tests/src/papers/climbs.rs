//! Papers whose climbs take several turns, with every turn of some cycles.

use super::{state, Cycle, Paper, Run};
use crate::climb::{Climb, Entered, Turn};
use crate::expression::Expressions;
use crate::program::{Program, State};
use crate::statement::Statement::{Asg, Dly, If, Par, Seq, Whl};

/// SEQ{DLY; IF 0 {DLY}; WHL 0 {DLY}; v0:=1}
fn skipped_program() -> Program {
    let mut exprs = Expressions::new();
    let zero = exprs.number(0);
    let one = exprs.number(1);
    let false_loop = Whl(zero, Box::new(Dly));
    let root = Seq(vec![Dly, If(zero, vec![Dly]), false_loop, Asg(0, one)]);
    Program::new(exprs, root, 1, 0)
}

pub fn skipped() -> Paper {
    let program = skipped_program();
    let one_later = state(&program, &[0], &[6], &[]);
    let ended = state(&program, &[1], &[], &[]);
    let run = |schedule: Vec<u16>, cycles: u16, worked: u16, after| Run {
        schedule,
        cycles,
        number: 0,
        worked,
        after,
    };
    Paper {
        name: "next children that finish at once",
        values: vec![0],
        begin: 0,
        start: state(&program, &[0], &[1], &[]),
        runs: vec![run(vec![1], 1, 1, one_later), run(vec![1, 6], 5, 2, ended)],
        program,
    }
}

/// SEQ{SEQ{SEQ{DLY}}}
fn chain_program() -> Program {
    let root = Seq(vec![Seq(vec![Seq(vec![Dly])])]);
    Program::new(Expressions::new(), root, 0, 0)
}

pub fn chain() -> Paper {
    let program = chain_program();
    Paper {
        name: "as many turns as nodes",
        values: vec![],
        begin: 0,
        start: state(&program, &[], &[3], &[]),
        runs: vec![Run {
            schedule: vec![3],
            cycles: 5,
            number: 0,
            worked: 1,
            after: state(&program, &[], &[], &[]),
        }],
        program,
    }
}

/// WHL 1 {SEQ{PAR{DLY; IF 1 {DLY}}; IF 0 {DLY}}}
fn thread_loop_program() -> Program {
    let mut exprs = Expressions::new();
    let one = exprs.number(1);
    let zero = exprs.number(0);
    let threads = Par(vec![Dly, If(one, vec![Dly])]);
    let body = Seq(vec![threads, If(zero, vec![Dly])]);
    Program::new(exprs, Whl(one, Box::new(body)), 0, 0)
}

/// What begin leaves, and every worked cycle.
fn thread_loop_state(program: &Program) -> State {
    state(program, &[], &[3, 5], &[(2, 2)])
}

pub fn thread_loop() -> Paper {
    let program = thread_loop_program();
    let start = thread_loop_state(&program);
    let run = |schedule: Vec<u16>| Run {
        schedule,
        cycles: 1,
        number: 0,
        worked: 1,
        after: start.clone(),
    };
    Paper {
        name: "a loop that begins again with its last thread",
        values: vec![],
        begin: 0,
        runs: vec![run(vec![3, 5]), run(vec![5, 3])],
        start,
        program,
    }
}

/// Node i is left and nothing is entered.
fn left(i: u16) -> Turn {
    Turn {
        left: i,
        entered: None,
    }
}

fn entering(i: u16, child: u16, stays: bool) -> Turn {
    Turn {
        left: i,
        entered: Some(Entered { child, stays }),
    }
}

/// Node i is left and a child entered that finishes.
fn past(i: u16, child: u16) -> Turn {
    entering(i, child, false)
}

/// Node i is left and a child entered that stays.
fn into(i: u16, child: u16) -> Turn {
    entering(i, child, true)
}

/// By the first leaf and by the last.
pub fn skipped_cycles() -> Vec<Cycle> {
    let program = skipped_program();
    let last = state(&program, &[0], &[6], &[]);
    let ended = state(&program, &[1], &[], &[]);
    let turns = vec![past(1, 2), past(2, 4), into(4, 6)];
    vec![
        Cycle {
            name: "up to a next child that stays",
            program: program.clone(),
            before: state(&program, &[0], &[1], &[]),
            climbs: vec![Climb { entry: 1, turns }],
            after: last.clone(),
        },
        Cycle {
            name: "from the last child",
            program,
            before: last,
            climbs: vec![Climb {
                entry: 6,
                turns: vec![left(6), left(0)],
            }],
            after: ended,
        },
    ]
}

pub fn chain_cycle() -> Cycle {
    let program = chain_program();
    Cycle {
        name: "as many turns as nodes",
        before: state(&program, &[], &[3], &[]),
        climbs: vec![Climb {
            entry: 3,
            turns: vec![left(3), left(2), left(1), left(0)],
        }],
        after: state(&program, &[], &[], &[]),
        program,
    }
}

/// By a book in either order: the second climb leaves the PAR, and the loop begins again.
pub fn thread_loop_cycles() -> Vec<Cycle> {
    let program = thread_loop_program();
    let same = thread_loop_state(&program);
    let cycle = |name: &'static str, climbs: Vec<Climb>| Cycle {
        name,
        program: program.clone(),
        before: same.clone(),
        climbs,
        after: same.clone(),
    };
    let climb = |own: &[Turn], more: &[Turn]| Climb {
        entry: own[0].left,
        turns: [own, more].concat(),
    };
    let first = [left(3)];
    let second = [left(5), left(4)];
    let past_the_par = [past(2, 6), left(6), into(1, 1)];
    vec![
        cycle(
            "the second thread last",
            vec![climb(&first, &[]), climb(&second, &past_the_par)],
        ),
        cycle(
            "the first thread last",
            vec![climb(&second, &[]), climb(&first, &past_the_par)],
        ),
    ]
}
