//! Papers about the widths of variables.

use super::{state, Paper, Run};
use crate::expression::Expressions;
use crate::program::Program;
use crate::statement::Statement::{Asg, Dly, In, Out, Par, Whl};

/// WHL 1 {v0:=v0+1}, with these widths.
pub(super) fn counter(widths: &[u16]) -> Program {
    let mut exprs = Expressions::new();
    let one = exprs.number(1);
    let v0 = exprs.variable(0);
    let more = exprs.sum(v0, one);
    let root = Whl(one, Box::new(Asg(0, more)));
    Program::new(exprs, root, 1, 0).with_widths(widths)
}

/// The counter of 12 bits: after 4,095 comes 0.
pub fn twelve_bit_counter() -> Paper {
    let program = counter(&[12]);
    let counting = |v0: u16| state(&program, &[v0], &[1], &[]);
    let run = |cycles: u16, v0: u16| Run {
        schedule: vec![1; cycles as usize],
        cycles,
        number: 0,
        worked: cycles,
        after: counting(v0),
    };
    Paper {
        name: "a counter of 12 bits passes 4,095",
        values: vec![4094],
        begin: 0,
        start: counting(4094),
        runs: vec![run(1, 4095), run(2, 0), run(3, 1)],
        program,
    }
}

/// PAR{OUT c0 6+v0; IN c0 v1; v2:=6+v0}, where v0 and v1 have one bit and v2 has 16. What is sent is
/// not cut to the width of v0, and what v1 loses of it v2 does not lose.
fn received_in_one_bit(name: &'static str, values: [u16; 3], after: [u16; 3]) -> Paper {
    let mut exprs = Expressions::new();
    let six = exprs.number(6);
    let v0 = exprs.variable(0);
    let sent = exprs.sum(six, v0);
    let root = Par(vec![Out(0, sent), In(0, 1), Asg(2, sent)]);
    let program = Program::new(exprs, root, 3, 1).with_widths(&[1, 1, 16]);
    let start = state(&program, &values, &[1, 2, 3], &[(0, 3)]);
    let ended = state(&program, &after, &[], &[]);
    let run = |schedule: Vec<u16>| Run {
        schedule,
        cycles: 5,
        number: 0,
        worked: 1,
        after: ended.clone(),
    };
    Paper {
        name,
        values: values.to_vec(),
        begin: 0,
        start,
        runs: vec![run(vec![1, 2, 3]), run(vec![3, 2, 1])],
        program,
    }
}

pub fn seven_into_one_bit() -> Paper {
    received_in_one_bit("7 received in one bit", [1, 0, 0], [1, 1, 7])
}

pub fn six_into_one_bit() -> Paper {
    received_in_one_bit("6 received in one bit", [0, 1, 0], [0, 0, 6])
}

/// PAR{OUT c0 v1+4; IN c0 v0; v1:=v1+4}, where v0 has one bit and v1 has 16: of 7, v0 keeps 1.
pub fn one_bit_input() -> Paper {
    let mut exprs = Expressions::new();
    let v1 = exprs.variable(1);
    let four = exprs.number(4);
    let sent = exprs.sum(v1, four);
    let root = Par(vec![Out(0, sent), In(0, 0), Asg(1, sent)]);
    let program = Program::new(exprs, root, 2, 1).with_widths(&[1, 16]);
    Paper {
        name: "an input of one bit",
        values: vec![0, 3],
        begin: 0,
        start: state(&program, &[0, 3], &[1, 2, 3], &[(0, 3)]),
        runs: vec![Run {
            schedule: vec![1, 2, 3],
            cycles: 5,
            number: 0,
            worked: 1,
            after: state(&program, &[1, 7], &[], &[]),
        }],
        program,
    }
}

/// WHL v0 {v0:=v0+1}, where v0 has one bit: 1 becomes 0, which ends the loop.
pub fn one_bit_loop() -> Paper {
    let mut exprs = Expressions::new();
    let v0 = exprs.variable(0);
    let one = exprs.number(1);
    let more = exprs.sum(v0, one);
    let program = Program::new(exprs, Whl(v0, Box::new(Asg(0, more))), 1, 0).with_widths(&[1]);
    Paper {
        name: "a loop of one bit",
        values: vec![1],
        begin: 0,
        start: state(&program, &[1], &[1], &[]),
        runs: vec![Run {
            schedule: vec![1],
            cycles: 5,
            number: 0,
            worked: 1,
            after: state(&program, &[0], &[], &[]),
        }],
        program,
    }
}

/// The counter of 12 bits from 4,096.
pub fn begin_too_wide() -> Paper {
    let program = counter(&[12]);
    let start = state(&program, &[4096], &[], &[]);
    Paper {
        name: "begin with a value too wide",
        values: vec![4096],
        begin: 6,
        start,
        runs: vec![],
        program,
    }
}

/// PAR{v0:=v0+1; DLY}, where v0 has 4 bits and starts at the greatest value of these.
pub fn begin_over_rubbish() -> Paper {
    let mut exprs = Expressions::new();
    let one = exprs.number(1);
    let v0 = exprs.variable(0);
    let more = exprs.sum(v0, one);
    let root = Par(vec![Asg(0, more), Dly]);
    let program = Program::new(exprs, root, 1, 0).with_widths(&[4]);
    let start = state(&program, &[15], &[1, 2], &[(0, 2)]);
    let ended = state(&program, &[0], &[], &[]);
    Paper {
        name: "begin over rubbish in marks and counts",
        values: vec![15],
        begin: 0,
        start,
        runs: vec![Run {
            schedule: vec![2, 1],
            cycles: 5,
            number: 0,
            worked: 1,
            after: ended,
        }],
        program,
    }
}

/// WHL v0 {PAR{v0:=v0+1; v1:=v0+v0*5000}}, where v0 has 4 bits and v1 has 16. In the second cycle the
/// product is 75,000, of which 65,536 is lost and not more; v0 comes to 16, of which 0 is kept, and the
/// loop ends by that 0.
pub fn wide_formula_of_narrow_variable() -> Paper {
    let mut exprs = Expressions::new();
    let one = exprs.number(1);
    let much = exprs.number(5000);
    let v0 = exprs.variable(0);
    let more = exprs.sum(v0, one);
    let product = exprs.product(v0, much);
    let formula = exprs.sum(v0, product);
    let body = Par(vec![Asg(0, more), Asg(1, formula)]);
    let program = Program::new(exprs, Whl(v0, Box::new(body)), 2, 0).with_widths(&[4, 16]);
    let start = state(&program, &[14, 0], &[2, 3], &[(1, 2)]);
    let once = state(&program, &[15, 4478], &[2, 3], &[(1, 2)]);
    let ended = state(&program, &[0, 9479], &[], &[]);
    let run = |schedule: Vec<u16>, cycles: u16, worked: u16, after| Run {
        schedule,
        cycles,
        number: 0,
        worked,
        after,
    };
    Paper {
        name: "a formula beyond the width of its variable",
        values: vec![14, 0],
        begin: 0,
        start,
        runs: vec![
            run(vec![2, 3], 1, 1, once),
            run(vec![2, 3, 3, 2], 5, 2, ended),
        ],
        program,
    }
}

/// WHL v0+1 {v0:=v0+1}, where v0 has one bit. The condition is 2 and 1 in turn, and so never false: it
/// is not cut to one bit.
pub fn condition_beyond_the_width() -> Paper {
    let mut exprs = Expressions::new();
    let one = exprs.number(1);
    let v0 = exprs.variable(0);
    let more = exprs.sum(v0, one);
    let root = Whl(more, Box::new(Asg(0, more)));
    let program = Program::new(exprs, root, 1, 0).with_widths(&[1]);
    let turning = |v0: u16| state(&program, &[v0], &[1], &[]);
    let run = |cycles: u16, v0: u16| Run {
        schedule: vec![1; cycles as usize],
        cycles,
        number: 0,
        worked: cycles,
        after: turning(v0),
    };
    Paper {
        name: "a condition beyond the width of its variable",
        values: vec![1],
        begin: 0,
        start: turning(1),
        runs: vec![run(1, 0), run(2, 1), run(3, 0)],
        program,
    }
}

/// PAR{v0:=2; v0:=4}, where v0 has one bit: both would keep 0, and still it is two stores.
pub fn two_stores_to_one_bit() -> Paper {
    let mut exprs = Expressions::new();
    let two = exprs.number(2);
    let four = exprs.number(4);
    let root = Par(vec![Asg(0, two), Asg(0, four)]);
    let program = Program::new(exprs, root, 1, 0).with_widths(&[1]);
    let start = state(&program, &[0], &[1, 2], &[(0, 2)]);
    Paper {
        name: "two stores that keep the same bit",
        values: vec![0],
        begin: 0,
        runs: vec![Run {
            schedule: vec![1, 2],
            cycles: 5,
            number: 9,
            worked: 0,
            after: start.clone(),
        }],
        start,
        program,
    }
}
