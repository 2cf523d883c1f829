//! Random statement trees within the limits of a shape.

use super::shape::Shape;
use crate::random::Random;
use crate::statement::Statement;

/// Places of IN and OUT in the weights.
const IN_KIND: usize = 3;
const OUT_KIND: usize = 4;

pub struct Maker<'a> {
    pub random: &'a mut Random,
    pub shape: &'a Shape,
    pub exprs: &'a [u16],
    /// Kind and channel of each IN and OUT that no later statement was made to meet.
    pub alone: Vec<(usize, u16)>,
}

impl Maker<'_> {
    /// A statement of at most `nodes` nodes and `depth` levels, both at least 1.
    pub fn statement(&mut self, nodes: usize, depth: usize) -> Statement {
        if nodes >= 6 && depth >= 4 && self.random.percent(self.shape.patterns) {
            if let Some(pattern) = self.pattern(nodes, depth) {
                return pattern;
            }
        }
        let mut weights = self.shape.weights;
        if nodes < 2 || depth < 2 {
            weights[0] = 0;
            weights[5] = 0;
            weights[6] = 0;
        } else {
            // A leaf here gives up the nodes still to be placed.
            for kind in [0, 1, 5, 6] {
                weights[kind] *= nodes;
            }
            for kind in [2, 3, 4, 7] {
                weights[kind] *= if nodes > 3 { 0 } else { 1 };
            }
        }
        if nodes < 3 || depth < 2 {
            weights[1] = 0;
        }
        self.drop_nameless(&mut weights);
        if weights.iter().sum::<usize>() == 0 {
            return Statement::Dly;
        }
        match self.random.weighted(&weights) {
            0 => Statement::Seq(self.children(1, nodes - 1, depth)),
            1 => Statement::Par(self.threads(nodes - 1, depth)),
            5 => {
                let most = self.random.between(1, 2);
                let children = self.up_to(1, most, nodes - 1, depth);
                Statement::If(self.condition(), children)
            }
            6 => Statement::Whl(self.condition(), Box::new(self.body(nodes - 1, depth - 1))),
            leaf => self.leaf(leaf),
        }
    }

    /// Statements that need a variable, channel or expression the program has not.
    fn drop_nameless(&self, weights: &mut [usize; 8]) {
        if self.shape.vars == 0 {
            weights[2] = 0;
            weights[3] = 0;
        }
        if self.shape.chans == 0 {
            weights[3] = 0;
            weights[4] = 0;
        }
        if self.exprs.is_empty() {
            weights[2] = 0;
            weights[4] = 0;
            weights[5] = 0;
            weights[6] = 0;
        }
    }

    fn leaf(&mut self, kind: usize) -> Statement {
        match kind {
            2 => Statement::Asg(self.variable(), self.expr()),
            3 | 4 => self.communication(kind),
            _ => Statement::Dly,
        }
    }

    /// Often the other end of an earlier communication, so that some of them complete.
    fn communication(&mut self, kind: usize) -> Statement {
        let has_both = self.shape.vars > 0 && !self.exprs.is_empty();
        let (kind, channel) = match self.alone.pop() {
            Some((IN_KIND, channel)) if has_both => (OUT_KIND, channel),
            Some((OUT_KIND, channel)) if has_both => (IN_KIND, channel),
            _ => (kind, self.channel()),
        };
        if self.random.percent(60) {
            self.alone.push((kind, channel));
        }
        if kind == IN_KIND {
            Statement::In(channel, self.variable())
        } else {
            Statement::Out(channel, self.expr())
        }
    }

    pub fn some_leaf(&mut self) -> Statement {
        let mut weights = self.shape.weights;
        weights[0] = 0;
        weights[1] = 0;
        weights[5] = 0;
        weights[6] = 0;
        weights[7] += 1;
        self.drop_nameless(&mut weights);
        let kind = self.random.weighted(&weights);
        self.leaf(kind)
    }

    fn body(&mut self, nodes: usize, depth: usize) -> Statement {
        if !self.random.percent(self.shape.timed_loops) {
            return self.body_that_may_finish(nodes, depth);
        }
        if nodes < 3 || depth < 2 {
            return self.some_leaf();
        }
        let first = self.some_leaf();
        let rest = self.statement(nodes - 2, depth - 1);
        if self.random.percent(30) {
            Statement::Par(vec![first, rest])
        } else {
            Statement::Seq(vec![first, rest])
        }
    }

    /// A body that may finish at once, which makes a zero-time loop.
    fn body_that_may_finish(&mut self, nodes: usize, depth: usize) -> Statement {
        if nodes < 2 || depth < 2 || self.random.percent(25) {
            return self.statement(nodes, depth);
        }
        let condition = self.expr_with(1);
        let inner = self.changing(condition, nodes - 1, depth - 1);
        if self.random.percent(50) {
            Statement::If(condition, vec![inner])
        } else {
            Statement::Whl(condition, Box::new(inner))
        }
    }

    /// A statement that, if the condition is a variable, often stores to it.
    fn changing(&mut self, condition: u16, nodes: usize, depth: usize) -> Statement {
        let at = 3 * condition as usize;
        if self.exprs[at] == 1 && self.random.percent(60) {
            let e = if self.random.percent(50) {
                self.expr_with(3)
            } else {
                self.expr_with(0)
            };
            Statement::Asg(self.exprs[at + 1], e)
        } else {
            self.statement(nodes, depth)
        }
    }

    fn children(&mut self, least: usize, nodes: usize, depth: usize) -> Vec<Statement> {
        let most = self.shape.width.max(least);
        let wanted = self.random.between(least, most);
        self.up_to(least, wanted, nodes, depth)
    }

    /// The children of a PAR. Sequences of leaves meet each other in many ways after some cycles.
    fn threads(&mut self, nodes: usize, depth: usize) -> Vec<Statement> {
        if depth < 3 || !self.random.percent(self.shape.leaf_sequences) {
            return self.children(2, nodes, depth);
        }
        let wanted = self.random.between(2, self.shape.width);
        let sizes = self.sizes(wanted.min(nodes).max(2), nodes);
        sizes
            .into_iter()
            .map(|size| self.leaf_sequence(size))
            .collect()
    }

    fn leaf_sequence(&mut self, nodes: usize) -> Statement {
        if nodes < 3 {
            return self.some_leaf();
        }
        let mut sequence: Vec<Statement> = (0..nodes - 1).map(|_| self.some_leaf()).collect();
        if self.random.percent(50) {
            sequence[0] = Statement::Dly;
        }
        Statement::Seq(sequence)
    }

    /// `wanted` children, fewer if there are not nodes enough; there are nodes for `least`.
    fn up_to(&mut self, least: usize, wanted: usize, nodes: usize, depth: usize) -> Vec<Statement> {
        let sizes = self.sizes(wanted.min(nodes).max(least), nodes);
        sizes
            .into_iter()
            .map(|size| self.statement(size, depth - 1))
            .collect()
    }

    /// The nodes shared out to so many children, at least one for each.
    fn sizes(&mut self, count: usize, nodes: usize) -> Vec<usize> {
        let mut sizes = vec![1; count];
        let mut at = self.random.below(count);
        for _ in count..nodes {
            sizes[at] += 1;
            if !self.shape.lopsided {
                at = self.random.below(count);
            }
        }
        sizes
    }

    pub fn expr(&mut self) -> u16 {
        self.random.below(self.exprs.len() / 3) as u16
    }

    /// An expression of this op, or any if a few draws find none.
    pub fn expr_with(&mut self, op: u16) -> u16 {
        for _ in 0..6 {
            let e = self.expr();
            if self.exprs[3 * e as usize] == op {
                return e;
            }
        }
        self.expr()
    }

    pub fn condition(&mut self) -> u16 {
        match self.random.below(10) {
            0..=2 => self.expr_with(0),
            3..=7 => self.expr_with(1),
            _ => self.expr(),
        }
    }

    pub fn variable(&mut self) -> u16 {
        self.random.below(self.shape.vars as usize) as u16
    }

    pub fn channel(&mut self) -> u16 {
        self.random.below(self.shape.chans as usize) as u16
    }
}
