//! Expression lists whose operands are shared.

use super::shape::Shape;
use crate::expression::Expressions;
use crate::random::Random;

pub fn expressions(random: &mut Random, shape: &Shape) -> Expressions {
    let mut exprs = Expressions::new();
    if shape.exprs >= 4 && shape.vars > 0 && random.percent(60) {
        // A countdown and a zero, so that a condition often changes after some cycles.
        let one = exprs.number(1);
        let variable = exprs.variable(random.below(shape.vars as usize) as u16);
        exprs.difference(variable, one);
        exprs.number(0);
    }
    // Doubling over and over takes forever if a shared operand is worked each time it is used.
    let doubling = random.percent(10);
    for e in exprs.list.len() / 3..shape.exprs {
        let variable = shape.vars > 0 && random.percent(50);
        if e > 0 && doubling {
            exprs.push(random.pick(&[2, 4]), e as u16 - 1, e as u16 - 1);
        } else if e > 0 && random.percent(45) {
            let op = random.between(2, 7) as u16;
            let p = random.below(e) as u16;
            let q = random.below(e) as u16;
            exprs.push(op, p, q);
        } else if variable {
            exprs.variable(random.below(shape.vars as usize) as u16);
        } else {
            // The larger ones lose bits in most of the variables that they are stored to.
            let any = random.word();
            let p = random.pick(&[0, 0, 1, 1, 1, 2, 300, 65535, any, any]);
            exprs.number(p);
        }
    }
    exprs
}
