//! How generated programs look.

use crate::program::MOST_DEPTH;
use crate::random::Random;

/// How a program is to look. The weights stand in the order of the kinds, SEQ first.
#[derive(Clone)]
pub struct Shape {
    pub nodes: usize,
    pub depth: usize,
    pub exprs: usize,
    pub vars: u16,
    pub chans: u16,
    pub width: usize,
    /// Whether one child gets all the nodes that can be shared out, which makes deep trees.
    pub lopsided: bool,
    pub weights: [usize; 8],
    /// In how many of a hundred loops the body starts with a statement that takes a cycle.
    pub timed_loops: usize,
    /// In how many of a hundred PARs the children are sequences of leaves.
    pub leaf_sequences: usize,
    /// In how many of a hundred places with room for one a pattern stands.
    pub patterns: usize,
}

const MIXED: [usize; 8] = [4, 4, 6, 3, 3, 3, 5, 2];
const CHANNELS: [usize; 8] = [4, 6, 2, 7, 7, 1, 3, 1];
const LOOPS: [usize; 8] = [3, 4, 6, 1, 1, 2, 9, 3];
const CONDITIONS: [usize; 8] = [3, 2, 2, 0, 0, 6, 9, 1];
const WIDE: [usize; 8] = [1, 8, 5, 3, 3, 1, 1, 3];
const WRITES: [usize; 8] = [2, 6, 8, 1, 1, 1, 2, 0];

pub fn shape(random: &mut Random) -> Shape {
    let mut shape = small_shape(random);
    match random.below(20) {
        0 => shape.nodes = random.between(20, 60),
        1 => {
            shape.nodes = random.between(50, 90);
            shape.depth = random.pick(&[20, MOST_DEPTH - 1, MOST_DEPTH, MOST_DEPTH]);
            shape.width = 2;
            shape.lopsided = true;
            shape.leaf_sequences = 0;
            shape.patterns = 0;
            shape.weights = [6, 3, 2, 1, 1, 6, 6, 1];
        }
        2 => {
            shape.nodes = random.between(20, 40);
            shape.width = 40;
            shape.chans = random.between(0, 30) as u16;
            shape.vars = random.between(0, 30) as u16;
        }
        3 => shape.exprs = random.between(20, 50),
        _ => {}
    }
    shape
}

pub fn small_shape(random: &mut Random) -> Shape {
    Shape {
        nodes: if random.percent(15) {
            random.between(1, 5)
        } else {
            random.between(6, 12)
        },
        depth: random.between(3, 7),
        exprs: if random.percent(5) {
            0
        } else {
            random.between(2, 8)
        },
        // Few names, so that two statements often share one.
        vars: random.pick(&[0, 1, 1, 2, 2, 3, 4]),
        chans: random.pick(&[0, 1, 1, 2, 2, 3]),
        width: random.between(2, 5),
        lopsided: false,
        weights: random.pick(&[
            MIXED, MIXED, CHANNELS, CHANNELS, LOOPS, CONDITIONS, WIDE, WRITES,
        ]),
        timed_loops: random.pick(&[0, 30, 70, 100]),
        leaf_sequences: random.pick(&[0, 0, 40, 80]),
        patterns: random.pick(&[0, 50, 80]),
    }
}
