//! The value of every expression. One pass up the list keeps shared operands cheap.

use crate::program::Program;

pub fn evaluate(program: &Program, values: &[u16]) -> Vec<u16> {
    let mut results: Vec<u16> = Vec::new();
    for e in 0..program.expr_count() {
        let (p, q) = (program.p(e), program.q(e));
        let left = |results: &[u16]| results[p as usize] as u32;
        let right = |results: &[u16]| results[q as usize] as u32;
        let result: u32 = match program.op(e) {
            0 => p as u32,
            1 => values[p as usize] as u32,
            2 => left(&results) + right(&results),
            3 => 65536 + left(&results) - right(&results),
            4 => left(&results) * right(&results),
            5 => left(&results) & right(&results),
            6 => (left(&results) == right(&results)) as u32,
            7 => (left(&results) < right(&results)) as u32,
            _ => unreachable!("only accepted programs are worked"),
        };
        results.push((result % 65536) as u16);
    }
    results
}
