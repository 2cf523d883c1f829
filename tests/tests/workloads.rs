//! That the programs of the benchmark are what they are said to be.

use pahmozil_tests::file::Sizes;
use pahmozil_tests::optimised;
use pahmozil_tests::program::{
    Program, State, ASG, DLY, IF, IN, MOST_DEPTH, MOST_EXPRS, MOST_WIDTH, OUT, PAR, SEQ, WHL,
};
use pahmozil_tests::reference::{self, Tree};
use pahmozil_tests::workloads::{self, Workload};
use std::collections::BTreeSet;

/// The states after each of so many cycles, by the reference, the start first.
fn states(workload: &Workload, cycles: usize) -> Vec<State> {
    let mut list = vec![workload.start.clone()];
    for _ in 0..cycles {
        let state = list.last().expect("the start stands in it");
        let entries = state.entries();
        let (answer, worked, after) = reference::run(&workload.program, state, &entries, 1);
        assert_eq!((answer.number, worked), (0, 1), "{}", workload.name);
        list.push(after);
    }
    list
}

fn always_active(workload: &Workload, count: usize) {
    for state in states(workload, 20) {
        assert_eq!(state.marked().len(), count, "{}", workload.name);
    }
}

#[test]
fn all_run_on() {
    for workload in workloads::all() {
        let Workload { program, start, .. } = &workload;
        let schedule = optimised::ascending_schedule(program, start, workload.cycles);
        let mut state = start.clone();
        let answer = optimised::run(program, &mut state, &schedule, workload.cycles);
        assert_eq!(answer, workload.answer, "{}", workload.name);
        assert!(!state.marked().is_empty(), "{}", workload.name);
    }
}

/// Nodes, expressions and active statements, as `docs/BENCHMARK.md` has them.
#[test]
fn sizes() {
    let sizes = workloads::all().iter().map(size).collect::<Vec<_>>();
    let expected = [
        (4, 3, 2),
        (501, 501, 250),
        (501, 501, 250),
        (10, 5, 2),
        (100, 5, 2),
        (1_000, 5, 2),
        (32, 4, 1),
        (32, 4, 1),
        (64, 13, 1),
        (2, 1_024, 1),
        (2, 43, 1),
        (4, 1_000, 2),
        (257, 129, 128),
        (67, 3, 65),
        (30, 25, 10),
        (22, 23, 10),
    ];
    assert_eq!(sizes, expected);
}

fn size(workload: &Workload) -> (usize, usize, usize) {
    let Workload { program, start, .. } = workload;
    let active = start.marked().len();
    (program.node_count(), program.expr_count(), active)
}

#[test]
fn swap_loop() {
    let workload = workloads::swap_loop();
    always_active(&workload, 2);
    let values: Vec<Vec<u16>> = states(&workload, 2)
        .into_iter()
        .map(|state| state.values)
        .collect();
    assert_eq!(values, [[0, 1], [1, 0], [0, 1]]);
}

#[test]
fn looping_assignments() {
    let workload = workloads::looping_assignments();
    always_active(&workload, 250);
    let after = &states(&workload, 3)[3];
    assert_eq!(after.values, (3..253).collect::<Vec<u16>>());
}

#[test]
fn looping_assignments_of_12_bits() {
    let wide = workloads::looping_assignments();
    let workload = workloads::looping_assignments_of_12_bits();
    let Workload { program, start, .. } = &workload;
    assert_eq!(program.widths, [12; 250]);
    assert_eq!(*program, wide.program.with_widths(&program.widths));
    assert_eq!((start, workload.cycles), (&wide.start, wide.cycles));
    always_active(&workload, 250);
    // After so many cycles, those that started at 96 or more have come past 4,095.
    let schedule = optimised::ascending_schedule(program, start, 4_000);
    let (answer, worked, after) = reference::run(program, start, &schedule, 4_000);
    assert_eq!((answer.number, worked), (0, 4_000));
    let expected = (4_000..4_096).chain(0..154);
    assert_eq!(after.values, expected.collect::<Vec<u16>>());
}

/// What was timed before variables had widths is still the same.
#[test]
fn all_others_have_the_greatest_width() {
    let narrow = |workload: &Workload| workload.program.widths.iter().any(|&w| w != MOST_WIDTH);
    let names: Vec<&str> = workloads::all()
        .iter()
        .filter(|workload| narrow(workload))
        .map(|workload| workload.name)
        .collect();
    assert_eq!(names, ["250 looping assignments, 12 bits"]);
}

#[test]
fn sequences() {
    for statements in [10, 100, 1_000] {
        let workload = workloads::sequences("sequences", statements);
        let program = &workload.program;
        assert_eq!(program.node_count(), statements);
        always_active(&workload, 2);
        // Each leaf has its turn.
        let mut met = vec![false; statements];
        for state in states(&workload, statements / 2) {
            state.marked().into_iter().for_each(|i| met[i] = true);
        }
        assert!((0..statements).all(|i| met[i] == program.is_leaf(i)));
    }
}

#[test]
fn nesting() {
    let shapes = [workloads::nesting(), workloads::nesting_on_a_variable()];
    for (workload, op) in shapes.into_iter().zip([0, 1]) {
        let program = &workload.program;
        let tree = Tree::of(program);
        let deepest = program.node_count() - 1;
        assert_eq!(tree.depth(deepest), MOST_DEPTH);
        let asked = (0..deepest).filter(|&i| matches!(program.kind(i), IF | WHL));
        assert!(asked
            .map(|i| program.op(program.a(i) as usize))
            .all(|it| it == op));
        always_active(&workload, 1);
        assert_eq!(states(&workload, 5)[5].values, [5, 1]);
    }
}

#[test]
fn chain() {
    let workload = workloads::chain();
    assert_eq!(workload.program.expr_count(), MOST_EXPRS);
    let results: Vec<Vec<u16>> = states(&workload, 50)
        .iter()
        .map(|state| reference::evaluate(&workload.program, &state.values))
        .collect();
    for pair in results.windows(2) {
        // The first two are the numbers 1 and 3.
        assert!((2..MOST_EXPRS).all(|e| pair[0][e] != pair[1][e]));
    }
}

/// The expressions that the nodes need, operands included.
fn needed_expressions(program: &Program) -> Vec<usize> {
    let mut needed = vec![false; program.expr_count()];
    for i in 0..program.node_count() {
        match program.kind(i) {
            ASG | OUT => needed[program.b(i) as usize] = true,
            IF | WHL => needed[program.a(i) as usize] = true,
            _ => {}
        }
    }
    for e in (0..needed.len()).rev() {
        if needed[e] && program.op(e) >= 2 {
            needed[program.p(e) as usize] = true;
            needed[program.q(e) as usize] = true;
        }
    }
    (0..needed.len()).filter(|&e| needed[e]).collect()
}

/// How many ops stand above one another in the expression.
fn levels(program: &Program, e: usize) -> usize {
    match program.op(e) {
        0 | 1 => 0,
        _ => {
            let [p, q] = [program.p(e), program.q(e)].map(usize::from);
            1 + levels(program, p).max(levels(program, q))
        }
    }
}

#[test]
fn formula() {
    let workload = workloads::formula();
    let program = &workload.program;
    assert_eq!(levels(program, program.b(1) as usize), 40);
    assert_eq!(needed_expressions(program).len(), 43);
    let states = states(&workload, 50);
    assert!(states
        .windows(2)
        .all(|pair| pair[0].values != pair[1].values));
}

#[test]
fn needed() {
    let workload = workloads::needed();
    let program = &workload.program;
    always_active(&workload, 2);
    let needed = needed_expressions(program);
    let formulas = needed.into_iter().filter(|&e| program.op(e) >= 2).count();
    let all = (0..1_000).filter(|&e| program.op(e) >= 2).count();
    assert_eq!((formulas, all), (2, 996));
    assert_eq!(states(&workload, 5)[5].values, [5, 16]);
}

#[test]
fn choices() {
    let workload = workloads::choices();
    let program = &workload.program;
    let tree = Tree::of(program);
    always_active(&workload, 1);
    let states = states(&workload, 31);
    let met: BTreeSet<usize> = states.iter().flat_map(State::marked).collect();
    assert_eq!(met.len(), 32, "32 cycles take 32 ways through the choices");
    // The loop, five IF and the leaf.
    assert!(met.iter().all(|&i| tree.depth(i) == 7));
    assert_eq!(states[31].values, [31]);
}

#[test]
fn exam_paper() {
    let workload = workloads::exam_paper();
    let program = &workload.program;
    always_active(&workload, 10);
    let count = |kind: u16| (0..30).filter(|&i| program.kind(i) == kind).count();
    let counts = [SEQ, PAR, ASG, IN, OUT, IF, WHL, DLY].map(count);
    assert_eq!(counts, [2, 1, 9, 2, 2, 2, 10, 2]);
    // In every third cycle a receiver waits; every leaf has its turn; every variable changes.
    let states = states(&workload, 10_000);
    let waits = |pair: &[State]| {
        let stays = |i: &usize| pair[1].marks[*i] == 1 && program.kind(*i) == IN;
        // The IN on channel 1 is the whole body of its loop, and so it is always marked.
        pair[0]
            .marked()
            .iter()
            .filter(|i| program.a(**i) == 0)
            .any(stays)
    };
    let waiting = states.windows(2).filter(|pair| waits(pair)).count();
    assert!((3_300..=3_340).contains(&waiting), "{waiting} cycles");
    let met: BTreeSet<usize> = states.iter().flat_map(State::marked).collect();
    assert_eq!(met.len(), (0..30).filter(|&i| program.is_leaf(i)).count());
    for variable in 0..9 {
        let first = states[0].values[variable];
        assert!(states.iter().any(|state| state.values[variable] != first));
    }
}

#[test]
fn refused_at_the_end() {
    let workload = workloads::refused_at_the_end();
    let Workload { program, start, .. } = &workload;
    always_active(&workload, 10);
    let schedule = optimised::ascending_schedule(program, start, workload.cycles);
    assert_eq!(schedule.len(), 10 * 30_001);
    let (answer, worked, after) = reference::run(program, start, &schedule, workload.cycles);
    assert_eq!((answer.number, worked), (10, 30_000));
    assert_eq!(after.values[..3], [30_000, 30_001, 30_002]);
}

#[test]
fn channel_pairs() {
    let workload = workloads::channel_pairs();
    always_active(&workload, 128);
    let kinds = |kind: u16| {
        let n = workload.program.node_count();
        (0..n).filter(|&i| workload.program.kind(i) == kind).count()
    };
    assert_eq!((kinds(IN), kinds(OUT)), (64, 64));
    // All 64 complete: each value goes up in each cycle.
    let after = &states(&workload, 3)[3];
    assert_eq!(after.values, (3..67).collect::<Vec<u16>>());
}

#[test]
fn waiting_inputs() {
    let workload = workloads::waiting_inputs();
    always_active(&workload, 65);
    let after = &states(&workload, 3)[3];
    assert_eq!(after.values[0], 3);
    assert_eq!(after.values[1..], (1..65).collect::<Vec<u16>>());
}

/// Nodes, expressions, variables and channels of the papers that are read and written, and their bytes.
#[test]
fn files() {
    let expected = [
        ([2, 3, 1, 0], 58),
        ([30, 25, 9, 2], 502),
        ([1_024, 1_024, 256, 256], 17_424),
    ];
    let files = workloads::files();
    assert_eq!(files.len(), expected.len());
    for (workload, ([nodes, exprs, vars, chans], bytes)) in files.iter().zip(expected) {
        let sizes = Sizes {
            nodes,
            exprs,
            vars,
            chans,
        };
        assert_eq!(Sizes::of(&workload.program), sizes, "{}", workload.name);
        assert_eq!(workload.file.len(), bytes, "{}", workload.name);
        let checked = reference::check(&workload.program);
        assert_eq!(checked.number, 0, "{}", workload.name);
    }
}
