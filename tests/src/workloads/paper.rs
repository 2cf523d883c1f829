//! A program as an examination may set it.

use super::{count_up, endless, workload, Workload};
use crate::expression::Expressions;
use crate::program::Program;
use crate::statement::Statement::{self, Asg, Dly, If, In, Out, Par, Seq};

/// Ten threads, each in a loop without end: three counters, a delay, two choices, a communication
/// that completes in every cycle, and one whose receiver waits in every third.
pub fn exam_paper() -> Workload {
    let mut exprs = Expressions::new();
    let one = exprs.number(1);
    let counters = [0, 1, 2].map(|variable| count_up(&mut exprs, one, variable));
    let (sender, receiver) = slow_communication(&mut exprs, one);
    let (sends, receives) = (Out(1, one), In(1, 8));
    let [first, second] = choices(&mut exprs, one);
    let bodies = [sender, receiver, sends, receives, first, second, Dly];
    let bodies = counters.into_iter().chain(bodies);
    let threads = bodies.map(|body| endless(one, body)).collect();
    let program = Program::new(exprs, Par(threads), 9, 2);
    workload("exam paper: 30 nodes, ten active", 10_000, program)
}

/// SEQ{v3:=v3+1; v3:=v3+v0; OUT c0 v3} and SEQ{IN c0 v4; v5:=v5+v4}
fn slow_communication(exprs: &mut Expressions, one: u16) -> (Statement, Statement) {
    let [v0, v3, v4, v5] = [0, 3, 4, 5].map(|variable| exprs.variable(variable));
    let first = Asg(3, exprs.sum(v3, one));
    let second = Asg(3, exprs.sum(v3, v0));
    let total = Asg(5, exprs.sum(v5, v4));
    let sender = Seq(vec![first, second, Out(0, v3)]);
    (sender, Seq(vec![In(0, 4), total]))
}

/// IF v0 & 1 {v6:=v6+v1; v6:=v6-1} and IF v5 < v2 {v7:=v7*v6; DLY}
fn choices(exprs: &mut Expressions, one: u16) -> [Statement; 2] {
    let [v0, v1, v2, v5, v6, v7] = [0, 1, 2, 5, 6, 7].map(|variable| exprs.variable(variable));
    let odd = exprs.both_bits(v0, one);
    let more = Asg(6, exprs.sum(v6, v1));
    let less = Asg(6, exprs.difference(v6, one));
    let below = exprs.below(v5, v2);
    let product = Asg(7, exprs.product(v7, v6));
    [If(odd, vec![more, less]), If(below, vec![product, Dly])]
}
