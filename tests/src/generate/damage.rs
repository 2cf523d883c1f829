//! Programs that differ from an accepted one.

use super::faults::several_faults;
use super::program::program;
use super::shape::{shape, small_shape};
use super::widths::{damage_widths, widths};
use crate::expression::Expressions;
use crate::program::{Program, MOST_CHANS, MOST_EXPRS, MOST_NODES, MOST_VARS, MOST_WIDTH};
use crate::random::Random;
use crate::statement::Statement;

/// Words to put in the place of `word`: the bounds of every question and a random one.
pub fn changes(random: &mut Random, program: &Program, word: u16) -> Vec<u16> {
    let mut list = vec![
        0,
        1,
        65535,
        word.wrapping_add(1),
        word.wrapping_sub(1),
        program.node_count() as u16,
        program.expr_count() as u16,
        program.vars,
        program.chans,
        random.between(0, 9) as u16,
        random.word(),
    ];
    list.retain(|&other| other != word);
    list
}

/// Several faults, or one change, now and then two.
pub fn damage(random: &mut Random, program: &mut Program) {
    if random.percent(45) {
        several_faults(random, program);
        return;
    }
    damage_once(random, program);
    if random.percent(15) {
        damage_once(random, program);
    }
}

/// Accepted, or in half of the cases damaged, or now and then at a limit.
pub fn any_program(random: &mut Random) -> Program {
    if random.below(200) == 0 {
        return tight_limits(random);
    }
    let shape = if random.percent(30) {
        shape(random)
    } else {
        small_shape(random)
    };
    let mut program = program(random, &shape);
    if random.percent(50) {
        damage(random, &mut program);
    }
    program
}

fn damage_once(random: &mut Random, program: &mut Program) {
    match random.below(23) {
        0..=3 => change_word(random, program, false),
        4..=11 => change_word(random, program, true),
        12 | 13 => change_name(random, program),
        14 => cut(random, program),
        15 => extend(random, program),
        16 => change_vars(random, program),
        17 => program.chans = other_count(random, program.chans),
        18 => swap_nodes(random, program),
        19..=21 => damage_widths(random, &mut program.widths),
        _ => *program = rubbish(random, 12),
    }
}

fn change_word(random: &mut Random, program: &mut Program, in_nodes: bool) {
    let length = if in_nodes {
        program.nodes.len()
    } else {
        program.exprs.len()
    };
    if length == 0 {
        return;
    }
    let at = random.below(length);
    let word = if in_nodes {
        program.nodes[at]
    } else {
        program.exprs[at]
    };
    let to = changes(random, program, word);
    let to = random.pick(&to);
    if in_nodes {
        program.nodes[at] = to;
    } else {
        program.exprs[at] = to;
    }
}

/// The last two words of a node hold its names; bounds there are what question 4 is about.
fn change_name(random: &mut Random, program: &mut Program) {
    if program.node_count() == 0 {
        return;
    }
    let at = 5 * random.below(program.node_count()) + random.between(3, 4);
    let bounds = [program.expr_count() as u16, program.vars, program.chans];
    program.nodes[at] = random.pick(&bounds).wrapping_add(random.below(2) as u16);
}

fn cut(random: &mut Random, program: &mut Program) {
    let (list, record) = if random.percent(50) {
        (&mut program.nodes, 5)
    } else {
        (&mut program.exprs, 3)
    };
    let words = if random.percent(50) {
        record
    } else {
        random.between(1, 7)
    };
    list.truncate(list.len().saturating_sub(words));
}

fn extend(random: &mut Random, program: &mut Program) {
    let (list, record) = if random.percent(50) {
        (&mut program.nodes, 5)
    } else {
        (&mut program.exprs, 3)
    };
    if random.percent(50) && list.len() >= record {
        let last = list[list.len() - record..].to_vec();
        list.extend(last);
    } else {
        let words = random.between(1, 7);
        list.extend((0..words).map(|_| random.between(0, 9) as u16));
    }
}

fn other_count(random: &mut Random, count: u16) -> u16 {
    let to = [
        0,
        1,
        MOST_VARS - 1,
        MOST_VARS,
        MOST_VARS + 1,
        65535,
        count.wrapping_sub(1),
        count.wrapping_add(1),
    ];
    random.pick(&to)
}

/// In half of the cases the widths follow, so that their length stays right.
fn change_vars(random: &mut Random, program: &mut Program) {
    program.vars = other_count(random, program.vars);
    if random.percent(50) {
        let length = program.vars.min(MOST_VARS + 1) as usize;
        program.widths.resize(length, MOST_WIDTH);
    }
}

fn swap_nodes(random: &mut Random, program: &mut Program) {
    let n = program.node_count();
    if n < 2 {
        return;
    }
    let (i, j) = (random.below(n), random.below(n));
    for word in 0..5 {
        program.nodes.swap(5 * i + word, 5 * j + word);
    }
}

/// Lists that were never a program; most have small words, so that some pass the first questions.
pub fn rubbish(random: &mut Random, records: usize) -> Program {
    let small = random.percent(80);
    let whole = random.percent(70);
    let mut list = |record: usize| -> Vec<u16> {
        let mut length = record * random.between(0, records);
        if !whole {
            length += random.below(record);
        }
        (0..length)
            .map(|_| {
                if small {
                    random.between(0, 8) as u16
                } else {
                    random.word()
                }
            })
            .collect()
    };
    let exprs = if small { Vec::new() } else { list(3) };
    let nodes = list(5);
    let vars = random.below(5);
    let mut widths = widths(random, vars);
    if random.percent(50) {
        damage_widths(random, &mut widths);
    }
    Program {
        exprs,
        nodes,
        widths,
        vars: vars as u16,
        chans: random.below(300) as u16,
    }
}

/// Programs at a limit, and one past it.
pub fn tight_limits(random: &mut Random) -> Program {
    let past = random.below(2);
    let delays = |count: usize| vec![Statement::Dly; count];
    let root = Statement::Seq(delays(random.between(1, 4)));
    let (vars, chans) = (random.below(3) as u16, random.below(3) as u16);
    let mut program = Program::new(Expressions::new(), root, vars, chans);
    match random.below(8) {
        0 => {
            program.vars = MOST_VARS + past as u16;
            program.widths = widths(random, program.vars as usize);
        }
        1 => program.chans = MOST_CHANS + past as u16,
        2 => program.exprs = [0, 7, 0].repeat(MOST_EXPRS + past),
        3 => program.nodes = Statement::Par(delays(MOST_NODES - 1 + past)).nodes(),
        4 => program.nodes = nest(random, 31 + past).nodes(),
        5 | 6 => program.widths = tight_widths(random, vars as usize, past),
        _ => match random.below(3) {
            // One child too few for a PAR, one too many for an IF or a WHL.
            0 => program.nodes = Statement::Par(delays(2 - past)).nodes(),
            1 => {
                program.exprs = vec![0, 1, 0];
                program.nodes = Statement::If(0, delays(2 + past)).nodes();
            }
            _ => {
                program.exprs = vec![0, 1, 0];
                program.nodes = Statement::If(0, delays(1 + past)).nodes();
                program.nodes[0] = crate::program::WHL;
            }
        },
    }
    program
}

/// Widths at a bound or one past it, or one width more or less than there are variables.
fn tight_widths(random: &mut Random, vars: usize, past: usize) -> Vec<u16> {
    match random.below(4) {
        0 => vec![MOST_WIDTH; vars + past],
        1 => vec![MOST_WIDTH; vars.saturating_sub(past)],
        2 => vec![1 - past as u16; vars],
        _ => vec![MOST_WIDTH + past as u16; vars],
    }
}

/// A DLY with so many SEQ above it, some of them with a second child.
fn nest(random: &mut Random, above: usize) -> Statement {
    let mut statement = Statement::Dly;
    for _ in 0..above {
        let mut children = vec![statement];
        if random.percent(20) {
            children.insert(random.below(2), Statement::Dly);
        }
        statement = Statement::Seq(children);
    }
    statement
}
