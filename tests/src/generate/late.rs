//! Programs that run for a known number of cycles before one is refused.

use super::values::value;
use super::widths::width_from;
use crate::expression::Expressions;
use crate::program::{Program, State, MOST_WIDTH};
use crate::random::Random;
use crate::reference;
use crate::statement::Statement::{self, Asg, Dly, If, In, Out, Par, Seq, Whl};

/// A begun program. With 8, 9 or 10 it is refused with this number after so many cycles; with any
/// other number it runs on without end.
pub fn late(random: &mut Random, number: u16, worked: u16) -> (Program, State) {
    let mut maker = Maker::new(random);
    let mut threads = match number {
        8 => maker.crowded_channel(worked),
        9 => maker.two_stores(worked),
        10 => vec![maker.late_loop(worked)],
        _ => vec![],
    };
    // Where nothing else does, this one changes a value in each cycle.
    threads.push(maker.counter());
    for _ in 0..maker.random.between(1, 6) {
        threads.extend(maker.workers());
    }
    maker.random.shuffle(&mut threads);
    let root = maker.grouped(threads);
    maker.begun(root)
}

struct Maker<'a> {
    random: &'a mut Random,
    exprs: Expressions,
    zero: u16,
    one: u16,
    /// Whether all variables have the greatest width.
    wide: bool,
    widths: Vec<u16>,
    starts: Vec<u16>,
    chans: u16,
}

impl Maker<'_> {
    fn new(random: &mut Random) -> Maker<'_> {
        let mut exprs = Expressions::new();
        let zero = exprs.number(0);
        let one = exprs.number(1);
        let wide = random.percent(30);
        Maker {
            random,
            exprs,
            zero,
            one,
            wide,
            widths: Vec::new(),
            starts: Vec::new(),
            chans: 0,
        }
    }

    fn begun(self, root: Statement) -> (Program, State) {
        let vars = self.starts.len() as u16;
        let program = Program::new(self.exprs, root, vars, self.chans).with_widths(&self.widths);
        let state = reference::begun(&program, &self.starts).expect("no loop is met at once");
        (program, state)
    }

    /// A variable of its own for whoever asks.
    fn variable(&mut self, width: u16, start: u16) -> u16 {
        self.widths.push(width);
        self.starts.push(start);
        self.starts.len() as u16 - 1
    }

    fn some_variable(&mut self) -> u16 {
        let width = self.width_from(1);
        let start = value(self.random, width);
        self.variable(width, start)
    }

    fn width_from(&mut self, least: u16) -> u16 {
        if self.wide {
            MOST_WIDTH
        } else {
            width_from(self.random, least)
        }
    }

    fn channel(&mut self) -> u16 {
        self.chans += 1;
        self.chans - 1
    }

    /// Any expression that there is by now.
    fn expr(&mut self) -> u16 {
        self.random.below(self.exprs.list.len() / 3) as u16
    }

    fn plus(&mut self, variable: u16, e: u16) -> u16 {
        let old = self.exprs.variable(variable);
        self.exprs.sum(old, e)
    }

    fn endless(&self, body: Statement) -> Statement {
        Whl(self.one, Box::new(body))
    }

    fn counter(&mut self) -> Statement {
        let variable = self.some_variable();
        let more = self.plus(variable, self.one);
        self.endless(Asg(variable, more))
    }

    /// A loop that takes so many cycles, at least one, and when entered again takes none.
    fn once(&mut self, cycles: u16) -> Statement {
        // The count comes to the number of cycles, so that it needs all the bits of that.
        let width = self.width_from((u16::BITS - cycles.leading_zeros()) as u16);
        let variable = self.variable(width, 0);
        let old = self.exprs.variable(variable);
        let end = self.exprs.number(cycles);
        let goes_on = self.exprs.below(old, end);
        let more = self.exprs.sum(old, self.one);
        let count = Asg(variable, more);
        let body = match self.random.below(5) {
            0 => Par(vec![count, Dly]),
            1 => Seq(vec![If(self.zero, vec![Dly]), count]),
            2 => {
                let odd = self.exprs.both_bits(old, self.one);
                If(odd, vec![count.clone(), Par(vec![Dly, count])])
            }
            _ => count,
        };
        Whl(goes_on, Box::new(body))
    }

    /// A statement that takes so many cycles.
    fn lasting(&mut self, cycles: u16) -> Statement {
        match self.random.below(4) {
            _ if cycles == 0 => If(self.zero, vec![Dly]),
            0 if cycles > 1 => Seq(vec![Dly, self.once(cycles - 1)]),
            1 if cycles > 1 => {
                let shorter = self.random.between(1, cycles as usize - 1) as u16;
                Par(vec![self.once(shorter), self.once(cycles)])
            }
            _ => self.once(cycles),
        }
    }

    fn after(&mut self, cycles: u16, statement: Statement) -> Statement {
        let before = self.lasting(cycles);
        Seq(vec![before, statement])
    }

    /// Two marks of one kind on a channel: one of them waits for the other, or both come at once.
    fn crowded_channel(&mut self, worked: u16) -> Vec<Statement> {
        let channel = self.channel();
        let earlier = match self.random.below(3) {
            0 => worked,
            _ => self.random.between(0, worked as usize) as u16,
        };
        let inputs = self.random.percent(50);
        [worked, earlier]
            .map(|cycles| {
                let end = if inputs {
                    In(channel, self.some_variable())
                } else {
                    Out(channel, self.expr())
                };
                self.after(cycles, end)
            })
            .to_vec()
    }

    /// Two stores to one variable, the second by an assignment or a communication.
    fn two_stores(&mut self, worked: u16) -> Vec<Statement> {
        let variable = self.some_variable();
        let store = Asg(variable, self.expr());
        let mut threads = vec![self.after(worked, store)];
        if self.random.percent(50) {
            let other = Asg(variable, self.expr());
            threads.push(self.after(worked, other));
        } else {
            let channel = self.channel();
            let out = Out(channel, self.expr());
            let earlier = self.random.between(0, worked as usize) as u16;
            threads.push(self.after(earlier, out));
            threads.push(self.after(worked, In(channel, variable)));
        }
        threads
    }

    /// An endless loop around loops that take no more time after their last cycle.
    fn late_loop(&mut self, worked: u16) -> Statement {
        let cycles = worked + 1;
        let body = match self.random.below(4) {
            0 => {
                let shorter = self.random.between(1, cycles as usize) as u16;
                let mut threads = vec![self.once(cycles), self.once(shorter)];
                self.random.shuffle(&mut threads);
                Par(threads)
            }
            1 => {
                let first = self.random.between(1, cycles as usize - 1) as u16;
                Seq(vec![self.once(first), self.once(cycles - first)])
            }
            2 => If(self.one, vec![self.once(cycles)]),
            _ => self.once(cycles),
        };
        self.endless(body)
    }

    /// Threads that run on, with names that no other thread has.
    fn workers(&mut self) -> Vec<Statement> {
        match self.random.below(8) {
            0 => vec![self.counter()],
            1 => vec![self.pair_of_stores()],
            2 => self.communication(),
            3 => vec![self.choice()],
            4 => vec![self.endless(Dly)],
            // Waits for ever.
            5 => vec![In(self.channel(), self.some_variable())],
            // Stores and changes nothing.
            6 => {
                let variable = self.some_variable();
                let same = self.exprs.variable(variable);
                vec![self.endless(Asg(variable, same))]
            }
            _ => {
                let cycles = self.random.between(1, 400) as u16;
                vec![self.lasting(cycles)]
            }
        }
    }

    fn pair_of_stores(&mut self) -> Statement {
        let (one, other) = (self.some_variable(), self.some_variable());
        let more = self.plus(one, self.one);
        let copy = self.exprs.variable(one);
        let product = self.exprs.product(copy, more);
        let pair = Par(vec![Asg(one, more), Asg(other, product)]);
        match self.random.below(3) {
            0 => self.endless(Seq(vec![pair, Dly])),
            1 => self.endless(Seq(vec![Asg(other, copy), pair])),
            _ => self.endless(pair),
        }
    }

    fn communication(&mut self) -> Vec<Statement> {
        let channel = self.channel();
        let variable = self.some_variable();
        let sent = self.plus(variable, self.one);
        let out = Out(channel, sent);
        let input = In(channel, variable);
        let bodies = match self.random.below(3) {
            0 => [out, input],
            1 => [Seq(vec![Dly, Dly, out]), input],
            _ => [Seq(vec![out, Dly]), Seq(vec![input, Dly, Dly])],
        };
        bodies.map(|body| self.endless(body)).to_vec()
    }

    fn choice(&mut self) -> Statement {
        let (variable, other) = (self.some_variable(), self.some_variable());
        let old = self.exprs.variable(variable);
        let bit = self.random.pick(&[1, 2, 4]);
        let bit = self.exprs.number(bit);
        let condition = self.exprs.both_bits(old, bit);
        let more = self.exprs.sum(old, self.one);
        let far = self.plus(other, condition);
        let first = Seq(vec![Asg(variable, more), Asg(other, far)]);
        self.endless(If(condition, vec![first, Asg(variable, more)]))
    }

    /// One PAR of all, or some of them in a PAR of their own.
    fn grouped(&mut self, mut threads: Vec<Statement>) -> Statement {
        if threads.len() >= 4 && self.random.percent(50) {
            let from = self.random.between(1, threads.len() - 2);
            let inner = Par(threads.split_off(from));
            let inner = match self.random.below(3) {
                0 => Seq(vec![inner]),
                1 => If(self.one, vec![inner]),
                _ => inner,
            };
            let at = self.random.below(threads.len() + 1);
            threads.insert(at, inner);
        }
        Par(threads)
    }
}
