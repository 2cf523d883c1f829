//! Programs of long climbs: levels around a leaf, with next children that finish at once.

use super::state::well_formed_state;
use crate::expression::Expressions;
use crate::program::{Program, State};
use crate::random::Random;
use crate::reference;
use crate::statement::Statement::{self, Asg, Dly, If, Par, Seq, Whl};

/// A program of at most so many nodes and levels, both at least 1, and a state. Mostly it is what begin
/// leaves, with the innermost leaf marked.
pub fn climbing(random: &mut Random, nodes: usize, levels: usize) -> (Program, State) {
    let mut maker = Maker::new(random);
    let root = maker.nest(nodes, levels);
    let program = Program::new(maker.exprs, root, 2, 0);
    let begun = reference::begun(&program, &[1, 0]).ok();
    let state = match begun.filter(|_| random.percent(80)) {
        Some(state) => state,
        None => well_formed_state(random, &program),
    };
    (program, state)
}

struct Maker<'a> {
    random: &'a mut Random,
    exprs: Expressions,
    zero: u16,
    one: u16,
    /// Variable 0, which is 1 before the first cycle.
    flag: u16,
    /// Whether the first leaf, which is the innermost, stores 0 to it.
    stores: bool,
    /// One in about so many of the next children may stay.
    seldom: usize,
    leaves: usize,
}

impl Maker<'_> {
    fn new(random: &mut Random) -> Maker<'_> {
        let mut exprs = Expressions::new();
        let zero = exprs.number(0);
        let one = exprs.number(1);
        let flag = exprs.variable(0);
        let stores = random.percent(70);
        let seldom = random.pick(&[20, 200, 2000]);
        Maker {
            random,
            exprs,
            zero,
            one,
            flag,
            stores,
            seldom,
            leaves: 0,
        }
    }

    /// One level after another around a leaf. What is left of the nodes stands beside the levels.
    fn nest(&mut self, nodes: usize, levels: usize) -> Statement {
        if nodes == 1 || levels == 1 {
            return self.leaf();
        }
        match self.random.below(16) {
            0 => If(self.entered(), vec![self.nest(nodes - 1, levels - 1)]),
            1 if self.stores => Whl(self.flag, Box::new(self.nest(nodes - 1, levels - 1))),
            2 if nodes >= 3 => If(self.zero, vec![Dly, self.nest(nodes - 2, levels - 1)]),
            3 if nodes >= 3 => self.threads(nodes, levels),
            _ => self.sequence(nodes, levels),
        }
    }

    fn threads(&mut self, nodes: usize, levels: usize) -> Statement {
        let beside = self.beside(nodes, levels).max(1);
        let inner = self.nest(nodes - 1 - beside, levels - 1);
        let other = match self.random.below(3) {
            0 => self.nest(beside, levels - 1),
            1 if beside >= 2 && levels >= 3 => self.skipped(beside, levels - 1),
            _ => self.leaf(),
        };
        let mut threads = vec![inner, other];
        self.random.shuffle(&mut threads);
        Par(threads)
    }

    fn sequence(&mut self, nodes: usize, levels: usize) -> Statement {
        let beside = self.beside(nodes, levels);
        let mut children = vec![self.nest(nodes - 1 - beside, levels - 1)];
        children.extend(self.next_children(beside, levels - 1));
        Seq(children)
    }

    /// How many nodes stand beside the next level: mostly so few that the levels below can all be had.
    fn beside(&mut self, nodes: usize, levels: usize) -> usize {
        let most = nodes - 2;
        let spare = nodes.saturating_sub(levels).min(most);
        match self.random.below(40) {
            0 => self.random.between(0, most),
            1..=6 => self.random.between(0, spare),
            7..=12 => spare,
            _ if levels <= 4 => spare,
            _ => 0,
        }
    }

    /// Ones that finish at once; sometimes there is one that stays, last or among them.
    fn next_children(&mut self, nodes: usize, levels: usize) -> Vec<Statement> {
        let mut children = Vec::new();
        let mut left = nodes;
        while left >= 2 && levels >= 2 {
            let size = match self.random.below(16) {
                0 => self.random.between(2, left.min(12)),
                _ => 2,
            };
            children.push(self.skipped(size, levels));
            left -= size;
        }
        if left > 0 && self.random.percent(30) {
            let last = children.len();
            let any = self.random.below(last + 1);
            let at = self.random.pick(&[last, last, any]);
            children.insert(at, self.leaf());
        }
        children
    }

    /// What finishes at once, of at most so many nodes and levels, both at least 2.
    fn skipped(&mut self, nodes: usize, levels: usize) -> Statement {
        let room = if levels >= 3 { nodes } else { 2 };
        match self.random.below(9) {
            0 if room >= 3 => If(self.one, vec![self.skipped(nodes - 1, levels - 1)]),
            1 if room >= 3 => Seq(vec![self.skipped(nodes - 1, levels - 1)]),
            2 if room >= 4 => If(self.zero, vec![Dly, self.skipped(nodes - 2, levels - 1)]),
            3 if room >= 5 => Par(self.two_skipped(nodes - 1, levels - 1)),
            4 if room >= 5 => Seq(self.two_skipped(nodes - 1, levels - 1)),
            5 | 6 => Whl(self.passed(), Box::new(self.body(nodes - 1, levels - 1))),
            _ => If(self.passed(), vec![self.body(nodes - 1, levels - 1)]),
        }
    }

    fn two_skipped(&mut self, nodes: usize, levels: usize) -> Vec<Statement> {
        let first = self.random.between(2, nodes - 2);
        let rest = nodes - first;
        vec![self.skipped(first, levels), self.skipped(rest, levels)]
    }

    /// What is mostly not entered.
    fn body(&mut self, nodes: usize, levels: usize) -> Statement {
        match nodes {
            2 if levels >= 2 => Seq(vec![Dly]),
            3.. if levels >= 2 => Par(vec![Dly; nodes - 1]),
            _ => Dly,
        }
    }

    fn leaf(&mut self) -> Statement {
        self.leaves += 1;
        match self.random.below(12) {
            _ if self.leaves == 1 && self.stores => Asg(0, self.zero),
            0 => Asg(0, self.one),
            1 => Asg(1, self.flag),
            _ => Dly,
        }
    }

    /// A condition that is true before the first cycle.
    fn entered(&mut self) -> u16 {
        self.random.pick(&[self.one, self.flag])
    }

    /// A condition that is mostly false after the first cycle.
    fn passed(&mut self) -> u16 {
        if self.random.below(self.seldom) == 0 {
            self.one
        } else if self.stores && self.random.percent(30) {
            self.flag
        } else {
            self.zero
        }
    }
}
