//! Few statements, so that the cost of a cycle itself shows.

use super::{count_up, endless, workload, Workload};
use crate::expression::Expressions;
use crate::program::{Program, MOST_DEPTH};
use crate::statement::Statement;

/// WHL 1 {PAR{v0:=v1; v1:=v0}}
pub fn swap_loop() -> Workload {
    let mut exprs = Expressions::new();
    let one = exprs.number(1);
    let first = Statement::Asg(0, exprs.variable(1));
    let second = Statement::Asg(1, exprs.variable(0));
    let root = endless(one, Statement::Par(vec![first, second]));
    let program = Program::new(exprs, root, 2, 0);
    workload("swap loop of two assignments", 65_535, program)
}

/// WHL c {SEQ{IF c {SEQ{IF c {.. v0:=v0+1}}}}}: each cycle leaves all the levels and enters them.
fn nested(name: &'static str, mut exprs: Expressions, condition: u16) -> Workload {
    let one = exprs.number(1);
    let mut body = count_up(&mut exprs, one, 0);
    for _ in 0..(MOST_DEPTH - 2) / 2 {
        body = Statement::Seq(vec![Statement::If(condition, vec![body])]);
    }
    let program = Program::new(exprs, endless(condition, body), 2, 0);
    workload(name, 30_000, program)
}

/// All conditions are the number 1.
pub fn nesting() -> Workload {
    let mut exprs = Expressions::new();
    let condition = exprs.number(1);
    nested("nesting of depth 32", exprs, condition)
}

/// All conditions are v1, which stays at 1: no version has it worked out before the cycles.
pub fn nesting_on_a_variable() -> Workload {
    let mut exprs = Expressions::new();
    let condition = exprs.variable(1);
    nested("nesting of depth 32, on a variable", exprs, condition)
}

/// WHL 1 {IF v0 & 1 {IF v0 & 2 {..}; IF v0 & 2 {..}}}: five levels of choices, by the bits of v0, and
/// v0:=v0+1 at each of the 32 ends.
pub fn choices() -> Workload {
    let mut exprs = Expressions::new();
    let one = exprs.number(1);
    let v0 = exprs.variable(0);
    let mut body = Statement::Asg(0, exprs.sum(v0, one));
    for bit in [16, 8, 4, 2, 1] {
        let bit = exprs.number(bit);
        let condition = exprs.both_bits(v0, bit);
        body = Statement::If(condition, vec![body.clone(), body]);
    }
    let program = Program::new(exprs, endless(one, body), 1, 0);
    workload("nested choices", 30_000, program)
}
