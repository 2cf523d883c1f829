//! How much of the caller's stack the calls write, as the greatest over programs that are large, deep
//! or hard to work in every way that the limits allow, and over the files of such programs. It is a
//! measurement and no proof: another program may need more. The frame of the wrapper, in `player.rs`
//! or `paper.rs`, is part of it.

use pahmozil_tests::answer::WITH_ITEM;
use pahmozil_tests::expression::Expressions;
use pahmozil_tests::file::{Buffers, Sizes};
use pahmozil_tests::generate;
use pahmozil_tests::optimised;
use pahmozil_tests::paper;
use pahmozil_tests::papers;
use pahmozil_tests::player;
use pahmozil_tests::program::{Program, State, MOST_DEPTH, MOST_EXPRS, MOST_NODES};
use pahmozil_tests::random::Random;
use pahmozil_tests::reference;
use pahmozil_tests::stack::{depth_of, on_a_large_stack};
use pahmozil_tests::statement::Statement::{self, Asg, Dly, If, In, Out, Par, Seq, Whl};
use pahmozil_tests::workloads;
use std::hint::black_box;

/// Bytes that each call may write: what was measured (6,384, 17,848 and 24,168) and a margin.
const MOST_FOR_CHECK: usize = 6_656;
const MOST_FOR_BEGIN: usize = 18_432;
const MOST_FOR_RUN: usize = 24_576;

/// The same for the calls on files (23,392 and 6,520); sizes writes too few to be seen.
const MOST_FOR_READ: usize = 24_064;
const MOST_FOR_WRITE: usize = 6_912;

/// Levels of a formula, around the depths at which a way of working it may change.
const LEVELS: [usize; 8] = [1, 2, 23, 24, 25, 26, 64, MOST_EXPRS - 8];

/// The greatest depths so far, and the programs that had them.
#[derive(Default)]
struct Greatest {
    check: (usize, String),
    begin: (usize, String),
    run: (usize, String),
    sizes: (usize, String),
    read: (usize, String),
    write: (usize, String),
}

fn raise(greatest: &mut (usize, String), depth: usize, name: &str) {
    if depth > greatest.0 {
        *greatest = (depth, name.to_string());
    }
}

impl Greatest {
    fn check(&mut self, name: &str, program: &Program) {
        let depth = depth_of(|| {
            black_box(player::check(black_box(program)));
        });
        raise(&mut self.check, depth, name);
    }

    fn begin(&mut self, name: &str, program: &Program, values: &[u16]) -> State {
        let n = program.node_count();
        let (mut marks, mut counts) = (vec![0; n], vec![0; n]);
        let depth = depth_of(|| {
            black_box(player::begin(program, values, &mut marks, &mut counts));
        });
        raise(&mut self.begin, depth, name);
        State {
            values: values.to_vec(),
            marks,
            counts,
        }
    }

    fn run(&mut self, name: &str, program: &Program, start: &State, book: &[u16], cycles: u16) {
        let mut state = start.clone();
        let depth = depth_of(|| {
            state.clone_from(start);
            black_box(player::run(program, &mut state, book, cycles));
        });
        raise(&mut self.run, depth, name);
    }

    /// The calls on the file of a paper. One that is refused is measured too, with any values.
    fn files(&mut self, name: &str, program: &Program, values: &[u16]) {
        let mut file = reference::bytes(program, values);
        let mut buffers = Buffers::filled(Sizes::of(program), 0);
        let depth = depth_of(|| {
            black_box(paper::sizes(black_box(&file)));
        });
        raise(&mut self.sizes, depth, name);
        let depth = depth_of(|| {
            black_box(paper::read(black_box(&file), &mut buffers));
        });
        raise(&mut self.read, depth, name);
        let depth = depth_of(|| {
            black_box(paper::write(black_box(program), values, &mut file));
        });
        raise(&mut self.write, depth, name);
    }

    /// All calls; the run also with a book that ends early.
    fn all(&mut self, name: &str, program: &Program, values: &[u16], cycles: u16) {
        self.check(name, program);
        self.files(name, program, values);
        let start = self.begin(name, program, values);
        if !optimised::takes(program, &start) {
            return;
        }
        let book = optimised::ascending_schedule(program, &start, cycles);
        self.run(name, program, &start, &book, cycles);
        if let Some((_, short)) = book.split_last() {
            self.run(name, program, &start, short, cycles);
        }
    }
}

/// A formula of so many levels over variable 0, whose value changes with the variable.
fn formula(exprs: &mut Expressions, one: u16, levels: usize) -> u16 {
    let mut last = exprs.variable(0);
    for level in 0..levels {
        last = match level % 3 {
            0 => exprs.sum(last, one),
            1 => exprs.sum(one, last),
            _ => exprs.product(last, last),
        };
    }
    last
}

/// One level around a statement, which stands as the first or the last child, or alone.
fn around(random: &mut Random, one: u16, zero: u16, inner: Statement) -> Statement {
    match random.below(9) {
        0 => Seq(vec![inner]),
        1 => Seq(vec![inner, Dly]),
        2 => Seq(vec![Whl(zero, Box::new(Dly)), inner]),
        3 => Par(vec![inner, Dly]),
        4 => Par(vec![Dly, inner]),
        5 => If(one, vec![inner]),
        6 => If(one, vec![inner, Dly]),
        7 => If(zero, vec![Dly, inner]),
        _ => Whl(one, Box::new(inner)),
    }
}

/// 32 levels with a choice at the bottom, by a formula that every cycle works again.
fn deep(random: &mut Random, levels: usize) -> Program {
    let mut exprs = Expressions::new();
    let one = exprs.number(1);
    let zero = exprs.number(0);
    let condition = formula(&mut exprs, one, levels);
    let v0 = exprs.variable(0);
    let count = exprs.sum(v0, one);
    let mut inner = If(condition, vec![Asg(0, count), Asg(0, count)]);
    while depth(&inner) < MOST_DEPTH - 1 {
        inner = around(random, one, zero, inner);
    }
    Program::new(exprs, Whl(one, Box::new(inner)), 1, 0)
}

/// 32 levels that are all of one form, so that all of them are entered by the same calls.
fn uniform(levels: usize, around: impl Fn(u16, Statement) -> Statement) -> Program {
    let mut exprs = Expressions::new();
    let one = exprs.number(1);
    let condition = formula(&mut exprs, one, levels);
    let v0 = exprs.variable(0);
    let count = exprs.sum(v0, one);
    let mut inner = If(condition, vec![Asg(0, count), Asg(0, count)]);
    while depth(&inner) < MOST_DEPTH - 1 {
        inner = around(one, inner);
    }
    Program::new(exprs, Whl(one, Box::new(inner)), 1, 0)
}

fn depth(statement: &Statement) -> usize {
    let nodes = statement.nodes();
    let mut depths: Vec<usize> = Vec::new();
    for (i, words) in nodes.chunks_exact(5).enumerate() {
        let above = if i == 0 { 0 } else { depths[words[1] as usize] };
        depths.push(above + 1);
    }
    depths.into_iter().max().expect("a statement has a node")
}

/// 1,024 nodes that are all active but for the PAR.
fn wide() -> Program {
    let mut exprs = Expressions::new();
    let one = exprs.number(1);
    let leaves = (0..MOST_NODES as u16 - 1).map(|i| match i {
        0..=255 => Asg(i, one),
        256..=511 => Out(i - 256, one),
        _ => Dly,
    });
    Program::new(exprs, Par(leaves.collect()), 256, 256)
}

/// 128 marks on channels, some of which wait, with a formula for each OUT.
fn channels(levels: usize) -> Program {
    let mut exprs = Expressions::new();
    let one = exprs.number(1);
    let sent = formula(&mut exprs, one, levels);
    let mut threads = Vec::new();
    for channel in 0..64 {
        threads.push(Whl(one, Box::new(In(channel, channel))));
        threads.push(Whl(one, Box::new(Out(channel % 62, sent))));
        if channel >= 61 {
            threads.pop();
        }
    }
    threads.extend((100..103).map(|channel| Out(channel, sent)));
    Program::new(exprs, Par(threads), 64, 128)
}

/// All 1,024 expressions, each right side with a formula of its own over the one before.
fn shared_formulas() -> Program {
    let mut exprs = Expressions::new();
    let one = exprs.number(1);
    let mut last = exprs.variable(0);
    let mut stores = Vec::new();
    for variable in 0..255 {
        for _ in 0..4 {
            last = exprs.sum(last, one);
        }
        stores.push(Whl(one, Box::new(Asg(variable, last))));
    }
    Program::new(exprs, Par(stores), 256, 0)
}

/// Refused with 10 in its second cycle, with all 1,024 nodes in use.
fn late_loop() -> Program {
    let mut exprs = Expressions::new();
    let one = exprs.number(1);
    let v0 = exprs.variable(0);
    let less = exprs.difference(v0, one);
    let mut threads = vec![Whl(one, Box::new(Whl(v0, Box::new(Asg(0, less)))))];
    threads.extend(vec![Whl(one, Box::new(Dly)); 500]);
    Program::new(exprs, Par(threads), 1, 0)
}

fn measure_large(greatest: &mut Greatest) {
    greatest.all("wide", &wide(), &[0; 256], 2);
    let one_bit = wide().with_widths(&[1; 256]);
    greatest.all("wide, of one bit", &one_bit, &[0; 256], 2);
    greatest.all("shared formulas", &shared_formulas(), &[7; 256], 3);
    greatest.all("late loop", &late_loop(), &[2], 5);
    for levels in LEVELS {
        let name = format!("channels, {levels} levels");
        greatest.all(&name, &channels(levels), &[5; 64], 3);
    }
    for limit in papers::limits() {
        greatest.check(limit.name, &limit.program);
        greatest.files(limit.name, &limit.program, &[]);
    }
    for workload in workloads::files() {
        greatest.files(workload.name, &workload.program, &workload.values);
    }
}

/// Programs with faults of every question, each at its last place, so that all of them are looked for.
fn measure_refused(greatest: &mut Greatest) {
    let random = &mut Random::new(803);
    for number in WITH_ITEM {
        let mut program = workloads::largest();
        let last = generate::places(&program, number).pop();
        let last = last.expect("the program can have such a fault");
        generate::spoil(random, &mut program, number, last);
        let values = vec![0; program.vars as usize];
        let name = format!("largest, refused with {number}");
        greatest.check(&name, &program);
        greatest.files(&name, &program, &values);
    }
}

fn measure_deep(greatest: &mut Greatest) {
    for levels in LEVELS {
        let mut ask = |form: &str, program: Program| {
            let name = format!("32 levels of {form}, {levels} levels of a formula");
            greatest.all(&name, &program, &[3], 4);
        };
        ask("SEQ", uniform(levels, |_, inner| Seq(vec![inner])));
        ask(
            "SEQ, first",
            uniform(levels, |_, inner| Seq(vec![inner, Dly])),
        );
        ask(
            "PAR, first",
            uniform(levels, |_, inner| Par(vec![inner, Dly])),
        );
        ask(
            "PAR, last",
            uniform(levels, |_, inner| Par(vec![Dly, inner])),
        );
        ask("IF", uniform(levels, |one, inner| If(one, vec![inner])));
        ask(
            "WHL",
            uniform(levels, |one, inner| Whl(one, Box::new(inner))),
        );
    }
    let random = &mut Random::new(801);
    for case in 0..400 {
        let levels = random.pick(&LEVELS);
        let name = format!("deep {case}, {levels} levels of a formula");
        greatest.all(&name, &deep(random, levels), &[3], 4);
    }
}

fn measure_random(greatest: &mut Greatest) {
    for workload in workloads::all() {
        let start = workload.start.values.clone();
        greatest.all(workload.name, &workload.program, &start, 3);
    }
    let random = &mut Random::new(802);
    for case in 0..3_000 {
        let mut shape = generate::shape(random);
        if case % 10 == 0 {
            shape.nodes = random.between(300, MOST_NODES);
            shape.depth = random.pick(&[8, MOST_DEPTH]);
            shape.exprs = random.between(1, MOST_EXPRS);
            (shape.vars, shape.chans) = (256, 256);
        }
        let program = generate::program(random, &shape);
        let values = generate::values(random, &program.widths);
        greatest.all(&format!("random {case}"), &program, &values, 4);
    }
}

#[test]
fn stack_of_the_calls() {
    let greatest = on_a_large_stack(|| {
        let mut greatest = Greatest::default();
        measure_large(&mut greatest);
        measure_refused(&mut greatest);
        measure_deep(&mut greatest);
        measure_random(&mut greatest);
        greatest
    });
    let within = |call: &str, (depth, name): (usize, String), most: usize| {
        println!("{call}: {depth} bytes ({name}), at most {most} allowed");
        assert!(depth > 0, "{call}: nothing was measured");
        depth <= most
    };
    let (depth, name) = greatest.sizes;
    assert_eq!(depth, 0, "paper_sizes ({name}): enough to be seen");
    let kept = [
        within("player_check", greatest.check, MOST_FOR_CHECK),
        within("player_begin", greatest.begin, MOST_FOR_BEGIN),
        within("player_run", greatest.run, MOST_FOR_RUN),
        within("paper_read", greatest.read, MOST_FOR_READ),
        within("paper_write", greatest.write, MOST_FOR_WRITE),
    ];
    assert_eq!(kept, [true; 5], "the calls within their bounds");
}

#[inline(never)]
fn writes(bytes: usize) {
    let mut block = [0_u8; 50_000];
    let from = block.len() - bytes;
    // A local array grows upwards, so that its last bytes stand nearest to the caller.
    black_box(&mut block)[from..].fill(1);
    black_box(&block);
}

/// A call that is known to write so much is measured so.
#[test]
fn the_measurement_itself() {
    let depths = on_a_large_stack(|| {
        let whole = depth_of(|| writes(50_000));
        let none = depth_of(|| ());
        (whole, none)
    });
    println!("an array of 50,000 bytes: {} bytes", depths.0);
    assert!((50_000..51_000).contains(&depths.0), "{depths:?}");
    assert_eq!(depths.1, 0);
}
