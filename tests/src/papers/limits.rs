//! The limits of N and of depth.

use super::Limit;
use crate::answer::Answer;
use crate::expression::Expressions;
use crate::program::Program;
use crate::statement::Statement::{self, Dly, Par, Seq};

fn of_nodes(n: usize) -> Program {
    Program::new(Expressions::new(), Par(vec![Dly; n - 1]), 0, 0)
}

fn of_depth(depth: usize) -> Program {
    let mut statement: Statement = Dly;
    for _ in 1..depth {
        statement = Seq(vec![statement]);
    }
    Program::new(Expressions::new(), statement, 0, 0)
}

pub fn n_1024() -> Limit {
    Limit {
        name: "N 1,024",
        program: of_nodes(1024),
        answer: Answer::without_item(0),
    }
}

pub fn n_1025() -> Limit {
    Limit {
        name: "N 1,025",
        program: of_nodes(1025),
        answer: Answer::without_item(1),
    }
}

pub fn depth_32() -> Limit {
    Limit {
        name: "depth 32",
        program: of_depth(32),
        answer: Answer::without_item(0),
    }
}

/// The innermost node, which is the last, is too deep.
pub fn depth_33() -> Limit {
    Limit {
        name: "depth 33",
        program: of_depth(33),
        answer: Answer {
            number: 3,
            item: 32,
        },
    }
}
