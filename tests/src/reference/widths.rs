//! The widths of the variables: question 11, what a store keeps, and whether values fit.

use crate::program::{Program, MOST_WIDTH};

/// Whether there are more or fewer widths than variables.
pub fn lengths_differ(program: &Program) -> bool {
    program.widths.len() != program.vars as usize
}

/// The places of the widths that are none; where the lengths do not differ, the variables with one.
pub fn bad_widths(program: &Program) -> Vec<usize> {
    let bad = |&v: &usize| !(1..=MOST_WIDTH).contains(&program.widths[v]);
    (0..program.widths.len()).filter(bad).collect()
}

/// What is kept of a value that is stored to the variable.
pub fn kept(program: &Program, variable: u16, value: u16) -> u16 {
    (value as u32 % beyond(program, variable)) as u16
}

/// The part of question 6 that begin asks too. The program is accepted, and each of its variables has
/// a value.
pub fn values_fit(program: &Program, values: &[u16]) -> bool {
    (0..program.vars).all(|v| (values[v as usize] as u32) < beyond(program, v))
}

/// Two to the power of the variable's width: the least number that is too large for it.
fn beyond(program: &Program, variable: u16) -> u32 {
    2_u32.pow(program.widths[variable as usize] as u32)
}
