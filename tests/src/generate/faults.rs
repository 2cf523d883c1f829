//! Faults at places of one's choice. Each breaks one question of check at one expression, node or
//! variable of an accepted program, and neither another question nor another place.

use super::widths::change_length;
use crate::answer::WITH_ITEM;
use crate::program::{Program, ASG, IF, IN, MOST_WIDTH, OUT, WHL};
use crate::random::Random;

/// The expressions, nodes or variables that can have a fault of this question.
pub fn places(program: &Program, number: u16) -> Vec<usize> {
    let nodes = 0..program.node_count();
    match number {
        2 => (0..program.expr_count()).collect(),
        3 => nodes.collect(),
        4 => nodes.filter(|&i| !names(program, i).is_empty()).collect(),
        _ => (0..program.widths.len()).collect(),
    }
}

/// The words of node i that name a variable, a channel or an expression.
fn names(program: &Program, i: usize) -> &'static [usize] {
    match program.kind(i) {
        ASG | IN | OUT => &[3, 4],
        IF | WHL => &[3],
        _ => &[],
    }
}

pub fn spoil(random: &mut Random, program: &mut Program, number: u16, at: usize) {
    match number {
        2 => spoil_expression(random, program, at),
        3 => spoil_node(random, program, at),
        4 => spoil_name(random, program, at),
        _ => {
            let too_wide = from(random, MOST_WIDTH + 1);
            program.widths[at] = random.pick(&[0, too_wide]);
        }
    }
}

/// The bound itself or a word above it.
fn from(random: &mut Random, bound: u16) -> u16 {
    let above = random.word().max(bound);
    random.pick(&[bound, above])
}

fn spoil_expression(random: &mut Random, program: &mut Program, e: usize) {
    let words = match random.below(4) {
        0 => [from(random, 8), 0, 0],
        1 => [random.below(2) as u16, 0, from(random, 1)],
        2 => [1, from(random, program.vars), 0],
        _ => {
            let mut operands = [from(random, e as u16), 0];
            random.shuffle(&mut operands);
            [random.between(2, 7) as u16, operands[0], operands[1]]
        }
    };
    program.exprs[3 * e..3 * e + 3].copy_from_slice(&words);
}

/// The end stays as it is, since it tells where other nodes belong.
fn spoil_node(random: &mut Random, program: &mut Program, i: usize) {
    let mut unused = vec![3, 4];
    unused.retain(|word| !names(program, i).contains(word));
    let words = &mut program.nodes[5 * i..5 * i + 5];
    match random.below(3) {
        0 => {
            let unknown = from(random, 9);
            words[0] = random.pick(&[0, unknown]);
        }
        1 if !unused.is_empty() => words[random.pick(&unused)] = from(random, 1),
        _ => words[1] = words[1].wrapping_add(from(random, 1)),
    }
}

fn spoil_name(random: &mut Random, program: &mut Program, i: usize) {
    let word = random.pick(names(program, i));
    let bound = match (program.kind(i), word) {
        (ASG, 3) | (IN, 4) => program.vars,
        (IN | OUT, 3) => program.chans,
        _ => program.expr_count() as u16,
    };
    program.nodes[5 * i + word] = from(random, bound);
}

/// Two faults or more of one question, if there are places for them, and in half of the cases one of
/// a later question; or a bad width among too many or too few.
pub fn several_faults(random: &mut Random, program: &mut Program) {
    if random.percent(30) {
        change_length(random, &mut program.widths);
        spoil_some(random, program, 11, 1);
        return;
    }
    // Few programs have several variables.
    let which = random.weighted(&[1, 1, 2, 2]);
    let count = random.between(2, 5);
    spoil_some(random, program, WITH_ITEM[which], count);
    let later = &WITH_ITEM[which + 1..];
    if !later.is_empty() && random.percent(50) {
        let other = random.pick(later);
        spoil_some(random, program, other, 1);
    }
}

fn spoil_some(random: &mut Random, program: &mut Program, number: u16, count: usize) {
    let mut places = places(program, number);
    random.shuffle(&mut places);
    for &at in places.iter().take(count) {
        spoil(random, program, number, at);
    }
}
