//! Many statements that are active, many that are not, many expressions.

use super::{count_up, endless, workload, Workload};
use crate::expression::Expressions;
use crate::program::{Program, MOST_EXPRS, MOST_WIDTH};
use crate::statement::Statement;

/// PAR{WHL 1 {v0:=v0+1}; .. WHL 1 {v249:=v249+1}}, with variables of this width.
fn looping_assignments_of(name: &'static str, width: u16) -> Workload {
    let mut exprs = Expressions::new();
    let one = exprs.number(1);
    let threads = (0..250)
        .map(|variable| endless(one, count_up(&mut exprs, one, variable)))
        .collect();
    let program = Program::new(exprs, Statement::Par(threads), 250, 0).with_widths(&[width; 250]);
    workload(name, 1_000, program)
}

pub fn looping_assignments() -> Workload {
    looping_assignments_of("250 looping assignments", MOST_WIDTH)
}

/// The same, where a store keeps 12 bits.
pub fn looping_assignments_of_12_bits() -> Workload {
    looping_assignments_of("250 looping assignments, 12 bits", 12)
}

/// PAR{WHL 1 {SEQ{v0:=v0+1; ..}}; WHL 1 {SEQ{v1:=v1+1; ..}}}, with so many statements in all.
pub fn sequences(name: &'static str, statements: usize) -> Workload {
    let mut exprs = Expressions::new();
    let one = exprs.number(1);
    // The PAR, two WHL and two SEQ are the other five statements.
    let leaves = statements - 5;
    let threads = [(0, leaves.div_ceil(2)), (1, leaves / 2)].map(|(variable, length)| {
        let leaf = count_up(&mut exprs, one, variable);
        endless(one, Statement::Seq(vec![leaf; length]))
    });
    let program = Program::new(exprs, Statement::Par(threads.to_vec()), 2, 0);
    workload(name, 30_000, program)
}

/// Adds expressions up to so many in all. Each adds 1 to the one before it or multiplies it by 3:
/// different values of the first give different values to all of them.
fn extend(exprs: &mut Expressions, first: u16, one: u16, three: u16, count: usize) -> u16 {
    let mut last = first;
    for e in exprs.list.len() / 3..count {
        last = match e % 2 {
            0 => exprs.product(last, three),
            _ => exprs.sum(last, one),
        };
    }
    last
}

/// WHL 1 {v0:=e}, where e is the last of so many expressions, all of which it needs.
fn chain_of(name: &'static str, cycles: u16, count: usize) -> Workload {
    let mut exprs = Expressions::new();
    let one = exprs.number(1);
    let three = exprs.number(3);
    let first = exprs.variable(0);
    let last = extend(&mut exprs, first, one, three, count);
    let program = Program::new(exprs, endless(one, Statement::Asg(0, last)), 1, 0);
    workload(name, cycles, program)
}

pub fn chain() -> Workload {
    chain_of("chain of 1,024 expressions", 5_000, MOST_EXPRS)
}

/// 40 ops, each on the one before it, above the variable and two numbers.
pub fn formula() -> Workload {
    chain_of("formula of 40 levels", 20_000, 43)
}

/// WHL 1 {PAR{v0:=v0+1; v1:=v1+3}}, with 994 formulas over v0 in the list that no statement reads.
pub fn needed() -> Workload {
    let mut exprs = Expressions::new();
    let one = exprs.number(1);
    let three = exprs.number(3);
    let v0 = exprs.variable(0);
    let v1 = exprs.variable(1);
    let unread = extend(&mut exprs, v0, one, three, 998);
    assert_eq!(unread, 997, "the two that are read come last");
    let stores = vec![
        Statement::Asg(0, exprs.sum(v0, one)),
        Statement::Asg(1, exprs.sum(v1, three)),
    ];
    let program = Program::new(exprs, endless(one, Statement::Par(stores)), 2, 0);
    workload("1,000 expressions, two needed", 30_000, program)
}
