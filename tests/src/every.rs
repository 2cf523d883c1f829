//! Every program of few nodes, as far as climbs tell them apart: each leaf is a DLY, and each condition
//! is always true or always false.

use crate::expression::Expressions;
use crate::program::Program;
use crate::statement::Statement::{self, Dly, If, Par, Seq, Whl};

const FALSE: u16 = 0;
const TRUE: u16 = 1;

/// Calls `with` for each program of at most so many nodes.
pub fn every_program(most: usize, mut with: impl FnMut(Program)) {
    // By the number of nodes.
    let mut statements = vec![vec![], vec![Dly]];
    // By the number of nodes of all statements together.
    let mut lists = vec![vec![vec![]]];
    with(program(&Dly));
    for nodes in 2..=most {
        let children = lists_of(nodes - 1, &statements, &lists);
        let mut with_these = Vec::new();
        for list in &children {
            for statement in around(list) {
                with(program(&statement));
                if nodes < most {
                    with_these.push(statement);
                }
            }
        }
        lists.push(children);
        statements.push(with_these);
    }
}

fn program(root: &Statement) -> Program {
    let mut exprs = Expressions::new();
    assert_eq!([exprs.number(0), exprs.number(1)], [FALSE, TRUE]);
    Program::new(exprs, root.clone(), 0, 0)
}

/// The lists that have so many nodes together.
fn lists_of(
    nodes: usize,
    statements: &[Vec<Statement>],
    lists: &[Vec<Vec<Statement>>],
) -> Vec<Vec<Statement>> {
    let mut all = Vec::new();
    for first_nodes in 1..=nodes {
        for first in &statements[first_nodes] {
            for rest in &lists[nodes - first_nodes] {
                all.push([std::slice::from_ref(first), rest].concat());
            }
        }
    }
    all
}

/// The statements that have these children.
fn around(children: &[Statement]) -> Vec<Statement> {
    let mut all = vec![Seq(children.to_vec())];
    if children.len() >= 2 {
        all.push(Par(children.to_vec()));
    }
    for condition in [FALSE, TRUE] {
        if children.len() <= 2 {
            all.push(If(condition, children.to_vec()));
        }
        if let [child] = children {
            all.push(Whl(condition, Box::new(child.clone())));
        }
    }
    all
}
