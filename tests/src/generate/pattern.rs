//! Arrangements that random trees seldom hit: two threads that communicate, and loops that become
//! zero-time loops only after some cycles.

use super::maker::Maker;
use crate::statement::Statement;

impl Maker<'_> {
    /// A pattern of at most `nodes` nodes (at least 6) and `depth` levels (at least 4), if the
    /// program has the names for it.
    pub fn pattern(&mut self, nodes: usize, depth: usize) -> Option<Statement> {
        if self.exprs.is_empty() || self.shape.vars == 0 {
            return None;
        }
        if self.shape.chans > 0 && self.random.percent(60) {
            Some(self.communicating_threads(nodes, depth))
        } else if depth >= 5 {
            Some(self.late_zero_time_loop(nodes, depth))
        } else {
            None
        }
    }

    fn communicating_threads(&mut self, nodes: usize, depth: usize) -> Statement {
        let channel = self.channel();
        let out = Statement::Out(channel, self.expr());
        let input = Statement::In(channel, self.variable());
        let rest = if nodes >= 10 {
            self.random.between(0, nodes - 9)
        } else {
            0
        };
        let share = (nodes - 1 - rest) / 2;
        let mut threads = vec![self.wrap(out, share), self.wrap(input, share)];
        if rest > 0 {
            threads.push(self.statement(rest, depth - 1));
        }
        self.random.shuffle(&mut threads);
        Statement::Par(threads)
    }

    /// The statement with a leaf before or after it, in a loop, or both; at most 3 levels.
    fn wrap(&mut self, statement: Statement, nodes: usize) -> Statement {
        let mut wrapped = statement;
        let sequence = nodes >= 3 && self.random.percent(70);
        if sequence {
            let mut children = vec![wrapped];
            for _ in 0..self.random.between(1, (nodes - 2).min(2)) {
                let leaf = self.some_leaf();
                children.insert(self.random.below(children.len() + 1), leaf);
            }
            wrapped = Statement::Seq(children);
        }
        if nodes >= if sequence { 5 } else { 2 } && self.random.percent(50) {
            wrapped = Statement::Whl(self.condition(), Box::new(wrapped));
        }
        wrapped
    }

    /// WHL 1 {IF v {v:=0}} and its like: the inner condition ends while the outer one holds.
    fn late_zero_time_loop(&mut self, nodes: usize, depth: usize) -> Statement {
        let inner = self.expr_with(1);
        let variable = if self.exprs[3 * inner as usize] == 1 {
            self.exprs[3 * inner as usize + 1]
        } else {
            self.variable()
        };
        let op = if self.random.percent(50) { 3 } else { 0 };
        let store = Statement::Asg(variable, self.expr_with(op));
        let mut body = if self.random.percent(50) {
            Statement::If(inner, vec![store])
        } else {
            Statement::Whl(inner, Box::new(store))
        };
        if self.random.percent(30) {
            body = Statement::Seq(vec![body]);
        }
        let late = Statement::Whl(self.true_number(), Box::new(body));
        let before = Statement::Asg(variable, self.true_number());
        match self.random.below(3) {
            0 => Statement::Seq(vec![before, late]),
            1 if nodes >= 7 => {
                let other = self.statement(nodes - 5, depth - 1);
                let mut threads = vec![late, other];
                self.random.shuffle(&mut threads);
                Statement::Par(threads)
            }
            _ => late,
        }
    }

    /// A number that is not 0, or any expression if a few draws find none.
    fn true_number(&mut self) -> u16 {
        for _ in 0..6 {
            let e = self.expr_with(0);
            if self.exprs[3 * e as usize] == 0 && self.exprs[3 * e as usize + 1] != 0 {
                return e;
            }
        }
        self.expr()
    }
}
