//! What check asks, then question 5, question 6 of the values alone, and 10; the entering of node 0.

use super::check::check;
use super::evaluate::evaluate;
use super::tree::Tree;
use super::walk::Walk;
use super::widths::values_fit;
use crate::answer::Answer;
use crate::program::{Program, State};

/// The answer, then the marks and counts as the call leaves them.
pub fn begin(
    program: &Program,
    values: &[u16],
    marks: &[u8],
    counts: &[u16],
) -> (Answer, Vec<u8>, Vec<u16>) {
    let refused = |answer: Answer| (answer, marks.to_vec(), counts.to_vec());
    let checked = check(program);
    if checked.number != 0 {
        return refused(checked);
    }
    if !lengths_right(program, values, marks, counts) {
        return refused(Answer::without_item(5));
    }
    if !values_fit(program, values) {
        return refused(Answer::without_item(6));
    }
    let n = program.node_count();
    let mut walk = Walk {
        program,
        tree: &Tree::of(program),
        results: &evaluate(program, values),
        marks: vec![0; n],
        counts: vec![0; n],
    };
    match walk.enter(0) {
        Ok(_) => (Answer::without_item(0), walk.marks, walk.counts),
        Err(_) => refused(Answer::without_item(10)),
    }
}

/// The state that begin leaves, or the number that refuses it.
pub fn begun(program: &Program, values: &[u16]) -> Result<State, u16> {
    let n = program.node_count();
    let (answer, marks, counts) = begin(program, values, &vec![0; n], &vec![0; n]);
    match answer.number {
        0 => Ok(State {
            values: values.to_vec(),
            marks,
            counts,
        }),
        number => Err(number),
    }
}

/// Question 5.
pub fn lengths_right(program: &Program, values: &[u16], marks: &[u8], counts: &[u16]) -> bool {
    values.len() == program.vars as usize
        && marks.len() == program.node_count()
        && counts.len() == program.node_count()
}
