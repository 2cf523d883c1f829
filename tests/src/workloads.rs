//! The programs that the benchmark times. None of them ends, and one alone is refused. `files` are
//! the papers that it reads and writes.

mod channels;
mod files;
mod lists;
mod paper;
mod refused;
mod small;

pub use channels::{channel_pairs, waiting_inputs};
pub use files::{files, largest, FileWorkload};
pub use lists::{
    chain, formula, looping_assignments, looping_assignments_of_12_bits, needed, sequences,
};
pub use paper::exam_paper;
pub use refused::refused_at_the_end;
pub use small::{choices, nesting, nesting_on_a_variable, swap_loop};

use crate::answer::Answer;
use crate::expression::Expressions;
use crate::program::{Program, State};
use crate::reference;
use crate::statement::Statement;

pub struct Workload {
    pub name: &'static str,
    pub program: Program,
    /// The state after begin, with variable i at value i.
    pub start: State,
    /// How many cycles one call asks for.
    pub cycles: u16,
    /// The answer and the cycles worked that a call gives.
    pub answer: (Answer, u16),
}

pub fn all() -> Vec<Workload> {
    vec![
        swap_loop(),
        looping_assignments(),
        looping_assignments_of_12_bits(),
        sequences("10 statements, two active", 10),
        sequences("100 statements, two active", 100),
        sequences("1,000 statements, two active", 1_000),
        nesting(),
        nesting_on_a_variable(),
        choices(),
        chain(),
        formula(),
        needed(),
        channel_pairs(),
        waiting_inputs(),
        exam_paper(),
        refused_at_the_end(),
    ]
}

fn workload(name: &'static str, cycles: u16, program: Program) -> Workload {
    let values: Vec<u16> = (0..program.vars).collect();
    let start = reference::begun(&program, &values).expect(name);
    Workload {
        name,
        program,
        start,
        cycles,
        answer: (Answer::without_item(0), cycles),
    }
}

fn endless(one: u16, body: Statement) -> Statement {
    Statement::Whl(one, Box::new(body))
}

/// variable := variable + 1
fn count_up(exprs: &mut Expressions, one: u16, variable: u16) -> Statement {
    let old = exprs.variable(variable);
    Statement::Asg(variable, exprs.sum(old, one))
}
