//! Accepted programs.

use super::expressions::expressions;
use super::maker::Maker;
use super::shape::Shape;
use super::widths::widths;
use crate::program::Program;
use crate::random::Random;

pub fn program(random: &mut Random, shape: &Shape) -> Program {
    let exprs = expressions(random, shape).list;
    let mut maker = Maker {
        random,
        shape,
        exprs: &exprs,
        alone: Vec::new(),
    };
    let nodes = maker.statement(shape.nodes, shape.depth).nodes();
    Program {
        exprs,
        nodes,
        widths: widths(random, shape.vars as usize),
        vars: shape.vars,
        chans: shape.chans,
    }
}
