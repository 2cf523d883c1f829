//! Inputs that are refused for their widths, and those that tell which question is asked first.

use super::widths::counter;
use super::{state, Refusal};
use crate::expression::Expressions;
use crate::program::Program;
use crate::statement::Statement::{Asg, Dly, Par, Whl};

/// PAR{v0:=v0+1; v1:=v1+1} in its first cycle, with these widths and values. The item is 0.
fn two_counters(name: &'static str, widths: &[u16], values: &[u16], numbers: [u16; 3]) -> Refusal {
    let mut exprs = Expressions::new();
    let one = exprs.number(1);
    let stores = [0, 1].map(|variable| {
        let old = exprs.variable(variable);
        Asg(variable, exprs.sum(old, one))
    });
    let program = Program::new(exprs, Par(stores.to_vec()), 2, 0).with_widths(widths);
    let state = state(&program, values, &[1, 2], &[(0, 2)]);
    Refusal {
        name,
        program,
        state,
        numbers,
        item: 0,
    }
}

pub fn wrong_widths() -> Vec<Refusal> {
    let refusal = |name: &'static str, widths: &[u16], item: u16| Refusal {
        item,
        ..two_counters(name, widths, &[3, 7], [11, 11, 11])
    };
    vec![
        refusal("no width", &[], 0),
        refusal("a width too few", &[16], 0),
        refusal("a width too many", &[16, 16, 16], 0),
        refusal("a width of 0", &[16, 0], 1),
        refusal("a width of 17", &[17, 16], 0),
        refusal("a width of 65,535", &[16, 65535], 1),
    ]
}

/// A counter with a width that is none, and with a width too many.
pub fn wrong_counters() -> Vec<Refusal> {
    let refusal = |name: &'static str, widths: &[u16]| {
        let program = counter(widths);
        let state = state(&program, &[0], &[1], &[]);
        Refusal {
            name,
            program,
            state,
            numbers: [11, 11, 11],
            item: 0,
        }
    };
    vec![
        refusal("a counter of 0 bits", &[0]),
        refusal("a counter of 17 bits", &[17]),
        refusal("a counter with two widths", &[16, 16]),
    ]
}

pub fn values_too_wide() -> Vec<Refusal> {
    let refusal = |name: &'static str, widths: &[u16], values: &[u16]| {
        two_counters(name, widths, values, [0, 6, 6])
    };
    vec![
        refusal("2 in one bit", &[1, 16], &[2, 0]),
        refusal("16 in 4 bits, beside 65,535 in 16", &[16, 4], &[65535, 16]),
        refusal("32,768 in 15 bits", &[15, 16], &[32768, 0]),
    ]
}

/// v1:=0 in a program with one variable and no width.
pub fn eleven_comes_after_4() -> Refusal {
    let mut exprs = Expressions::new();
    let zero = exprs.number(0);
    let program = Program::new(exprs, Asg(1, zero), 1, 0).with_widths(&[]);
    let state = state(&program, &[0], &[0], &[]);
    Refusal {
        name: "no width, and a variable that is not there",
        program,
        state,
        numbers: [4, 4, 4],
        item: 0,
    }
}

pub fn eleven_comes_before_5() -> Refusal {
    let name = "a width of 0, and a value too few";
    Refusal {
        item: 1,
        ..two_counters(name, &[16, 0], &[3], [11, 11, 11])
    }
}

pub fn five_comes_before_6() -> Refusal {
    let name = "16 in 4 bits, and a value too many";
    two_counters(name, &[4, 16], &[16, 0, 0], [0, 5, 5])
}

/// WHL 1 {WHL 0 {DLY}}, which begin would refuse with 10, beside a value that is too wide.
pub fn six_comes_before_10() -> Refusal {
    let mut exprs = Expressions::new();
    let one = exprs.number(1);
    let zero = exprs.number(0);
    let root = Whl(one, Box::new(Whl(zero, Box::new(Dly))));
    let program = Program::new(exprs, root, 1, 0).with_widths(&[4]);
    let state = state(&program, &[16], &[], &[]);
    Refusal {
        name: "16 in 4 bits, and a zero-time loop",
        program,
        state,
        numbers: [0, 6, 6],
        item: 0,
    }
}
