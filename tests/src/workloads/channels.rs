//! Communications that complete in every cycle, and ones that never do.

use super::{count_up, endless, workload, Workload};
use crate::expression::Expressions;
use crate::program::Program;
use crate::statement::Statement;

/// PAR{WHL 1 {OUT c0 v0+1}; WHL 1 {IN c0 v0}; .. and so on for 64 channels}
pub fn channel_pairs() -> Workload {
    let mut exprs = Expressions::new();
    let one = exprs.number(1);
    let mut threads = Vec::new();
    for pair in 0..64 {
        let old = exprs.variable(pair);
        let out = Statement::Out(pair, exprs.sum(old, one));
        threads.push(endless(one, out));
        threads.push(endless(one, Statement::In(pair, pair)));
    }
    let program = Program::new(exprs, Statement::Par(threads), 64, 64);
    workload("64 channel pairs", 1_000, program)
}

/// PAR{WHL 1 {v0:=v0+1}; IN c0 v1; .. IN c63 v64}
pub fn waiting_inputs() -> Workload {
    let mut exprs = Expressions::new();
    let one = exprs.number(1);
    let mut threads = vec![endless(one, count_up(&mut exprs, one, 0))];
    threads.extend((0..64).map(|channel| Statement::In(channel, channel + 1)));
    let program = Program::new(exprs, Statement::Par(threads), 65, 64);
    workload("64 waiting inputs and a counter", 2_500, program)
}
