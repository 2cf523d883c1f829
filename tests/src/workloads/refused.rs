//! A run that is refused after many cycles, so that a cost of being able to undo a cycle shows.

use super::{count_up, endless, workload, Workload};
use crate::answer::Answer;
use crate::expression::Expressions;
use crate::program::Program;
use crate::statement::Statement;

/// The cycles that are worked.
const WORKED: u16 = 30_000;

/// PAR{WHL 1 {v1:=v1+1}; .. WHL 1 {v9:=v9+1}; WHL 1 {WHL v0<30,001 {v0:=v0+1}}}: the cycle in which
/// v0 would come to 30,001 meets a zero-time loop, after nine other walks.
pub fn refused_at_the_end() -> Workload {
    let mut exprs = Expressions::new();
    let one = exprs.number(1);
    let mut threads: Vec<Statement> = (1..10)
        .map(|variable| endless(one, count_up(&mut exprs, one, variable)))
        .collect();
    let v0 = exprs.variable(0);
    let end = exprs.number(WORKED + 1);
    let goes_on = exprs.below(v0, end);
    let counts = Statement::Asg(0, exprs.sum(v0, one));
    let inner = Statement::Whl(goes_on, Box::new(counts));
    threads.push(endless(one, inner));
    let program = Program::new(exprs, Statement::Par(threads), 10, 0);
    Workload {
        answer: (Answer::without_item(10), WORKED),
        ..workload("long run, refused with 10 at its end", 65_535, program)
    }
}
