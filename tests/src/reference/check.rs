//! Questions 1 to 4 and 11, and the first fault of each that comes with an item.

use super::tree::Tree;
use super::widths::{bad_widths, lengths_differ};
use crate::answer::Answer;
use crate::program::{
    Program, ASG, DLY, IF, IN, MOST_CHANS, MOST_DEPTH, MOST_EXPRS, MOST_NODES, MOST_VARS,
    NO_PARENT, OUT, PAR, SEQ, WHL,
};

pub fn check(program: &Program) -> Answer {
    if !within_limits(program) {
        return Answer::without_item(1);
    }
    let refused = |number: u16| {
        let item = *faults(program, number).iter().min()? as u16;
        Some(Answer { number, item })
    };
    if let Some(answer) = [2, 3, 4].into_iter().find_map(refused) {
        return answer;
    }
    if lengths_differ(program) {
        return Answer::without_item(11);
    }
    refused(11).unwrap_or(Answer::without_item(0))
}

/// All the expressions, nodes or variables that break question 2, 3, 4 or 11, ascending.
pub fn faults(program: &Program, number: u16) -> Vec<usize> {
    let exprs = 0..program.expr_count();
    let nodes = 0..program.node_count();
    match number {
        2 => exprs.filter(|&e| expression_fault(program, e)).collect(),
        3 => {
            let tree = Tree::of(program);
            nodes.filter(|&i| node_fault(program, &tree, i)).collect()
        }
        4 => nodes.filter(|&i| name_fault(program, i)).collect(),
        11 => bad_widths(program),
        _ => unreachable!("no other question is asked of one at a time"),
    }
}

fn within_limits(program: &Program) -> bool {
    program.exprs.len().is_multiple_of(3)
        && program.nodes.len().is_multiple_of(5)
        && (1..=MOST_NODES).contains(&program.node_count())
        && program.expr_count() <= MOST_EXPRS
        && program.vars <= MOST_VARS
        && program.chans <= MOST_CHANS
}

/// Whether expression e breaks question 2.
fn expression_fault(program: &Program, e: usize) -> bool {
    let (p, q) = (program.p(e), program.q(e));
    match program.op(e) {
        0 => q != 0,
        1 => p >= program.vars || q != 0,
        2..=7 => p as usize >= e || q as usize >= e,
        _ => true,
    }
}

/// Whether node i breaks question 3.
fn node_fault(program: &Program, tree: &Tree, i: usize) -> bool {
    !(kind_known(program, i)
        && end_right(program, tree, i)
        && parent_right(program, tree, i)
        && tree.depth(i) <= MOST_DEPTH
        && children_right(program, tree, i)
        && unused_words_zero(program, i))
}

fn kind_known(program: &Program, i: usize) -> bool {
    (SEQ..=DLY).contains(&program.kind(i))
}

fn end_right(program: &Program, tree: &Tree, i: usize) -> bool {
    let end = program.end(i);
    if program.is_leaf(i) && end != i + 1 {
        return false;
    }
    if i == 0 {
        return end == program.node_count();
    }
    match tree.parents[i] {
        Some(h) => (i + 1..=program.end(h)).contains(&end),
        None => false,
    }
}

fn parent_right(program: &Program, tree: &Tree, i: usize) -> bool {
    if i == 0 {
        return program.parent_word(0) == NO_PARENT;
    }
    match tree.parents[i] {
        Some(h) => program.parent_word(i) as usize == h,
        None => false,
    }
}

fn children_right(program: &Program, tree: &Tree, i: usize) -> bool {
    let count = tree.children[i].len();
    match program.kind(i) {
        SEQ => count >= 1,
        PAR => count >= 2,
        IF => count == 1 || count == 2,
        WHL => count == 1,
        _ => count == 0,
    }
}

fn unused_words_zero(program: &Program, i: usize) -> bool {
    match program.kind(i) {
        SEQ | PAR | DLY => program.a(i) == 0 && program.b(i) == 0,
        IF | WHL => program.b(i) == 0,
        _ => true,
    }
}

/// Whether node i breaks question 4.
fn name_fault(program: &Program, i: usize) -> bool {
    let (a, b) = (program.a(i), program.b(i));
    let variable = |word: u16| word < program.vars;
    let channel = |word: u16| word < program.chans;
    let expression = |word: u16| (word as usize) < program.expr_count();
    match program.kind(i) {
        ASG => !variable(a) || !expression(b),
        IN => !channel(a) || !variable(b),
        OUT => !channel(a) || !expression(b),
        IF | WHL => !expression(a),
        _ => false,
    }
}
