//! `player_run` against the reference.

use pahmozil_tests::answer::Answer;
use pahmozil_tests::compare;
use pahmozil_tests::expression::Expressions;
use pahmozil_tests::generate;
use pahmozil_tests::items::Items;
use pahmozil_tests::papers;
use pahmozil_tests::player;
use pahmozil_tests::program::{Program, State};
use pahmozil_tests::random::Random;
use pahmozil_tests::statement::Statement;
use pahmozil_tests::tally::Tally;

fn some_program(random: &mut Random) -> Program {
    let shape = if random.percent(40) {
        generate::shape(random)
    } else {
        generate::small_shape(random)
    };
    generate::program(random, &shape)
}

fn cycles_asked(random: &mut Random) -> u16 {
    match random.below(12) {
        0 => 0,
        1 => 65535,
        2 => random.between(7, 25) as u16,
        _ => random.between(1, 6) as u16,
    }
}

/// A run with a schedule made for this state. A schedule for more than 25 cycles is not made:
/// longer runs end for want of entries.
fn ask(random: &mut Random, program: &Program, state: &State) -> (u16, u16) {
    let cycles = cycles_asked(random);
    let made = random.pick(&[2, 4, 6, 25]).min(cycles as usize + 1);
    let schedule = generate::schedule(random, program, state, made);
    compare::run(program, state, &schedule, cycles)
}

#[test]
fn states_that_runs_reach() {
    let random = &mut Random::new(303);
    let tally = &mut Tally::new("run, reached states");
    let late = &mut Tally::new("run, of these after one cycle or more");
    while tally.total() < 150_000 {
        let program = some_program(random);
        // From the start as well, so that refusals also come after some cycles of the same run.
        for before in [0, 0, 4] {
            if let Some(state) = generate::reached_state(random, &program, before) {
                let (number, worked) = ask(random, &program, &state);
                tally.meet(number);
                if worked > 0 {
                    late.meet(number);
                }
            }
        }
    }
    tally.demand(&[0, 7, 8, 9, 10], 2_000);
    late.demand(&[0, 7, 8, 9, 10], 300);
}

#[test]
fn well_formed_states_that_no_run_need_reach() {
    let random = &mut Random::new(304);
    let tally = &mut Tally::new("run, well-formed states");
    while tally.total() < 60_000 {
        let program = some_program(random);
        let state = generate::well_formed_state(random, &program);
        tally.meet(ask(random, &program, &state).0);
    }
    tally.demand(&[0, 7, 8, 9, 10], 1_000);
}

#[test]
fn damaged_programs() {
    let random = &mut Random::new(305);
    let tally = &mut Tally::new("run, damaged programs");
    let items = &mut Items::new("run");
    while tally.total() < 80_000 {
        let mut program = some_program(random);
        let state = generate::well_formed_state(random, &program);
        let schedule = generate::schedule(random, &program, &state, 2);
        generate::damage(random, &mut program);
        let cycles = cycles_asked(random);
        let (number, _) = compare::run(&program, &state, &schedule, cycles);
        tally.meet(number);
        items.meet(&program, number);
    }
    tally.demand(&[0, 1, 2, 3, 4, 7, 11], 2_000);
    items.demand();
}

#[test]
fn damaged_states() {
    let random = &mut Random::new(309);
    let tally = &mut Tally::new("run, damaged states");
    while tally.total() < 50_000 {
        let program = some_program(random);
        let mut state = generate::well_formed_state(random, &program);
        let schedule = generate::schedule(random, &program, &state, 4);
        generate::damaged_state(random, &program, &mut state);
        if random.percent(50) {
            // Two changes can leave the lists well formed again, in another way.
            generate::damaged_state(random, &program, &mut state);
        }
        let cycles = cycles_asked(random);
        tally.meet(compare::run(&program, &state, &schedule, cycles).0);
    }
    tally.demand(&[0, 5, 6], 2_000);
}

/// States of which nothing but a value is wrong.
#[test]
fn values_too_wide() {
    let random = &mut Random::new(308);
    let tally = &mut Tally::new("run, values too wide");
    while tally.total() < 10_000 {
        let program = some_program(random);
        let mut state = generate::well_formed_state(random, &program);
        let schedule = generate::schedule(random, &program, &state, 4);
        let before = state.values.clone();
        generate::widen(random, &program.widths, &mut state.values);
        if state.values != before {
            let cycles = cycles_asked(random);
            tally.meet(compare::run(&program, &state, &schedule, cycles).0);
        }
    }
    tally.demand(&[6], 10_000);
}

/// All marks in 0 and 1, mostly with the thread counts that go with them.
#[test]
fn every_marking_of_small_programs() {
    let random = &mut Random::new(306);
    let tally = &mut Tally::new("run, every marking");
    while tally.total() < 30_000 {
        let shape = generate::small_shape(random);
        let program = generate::program(random, &shape);
        let n = program.node_count();
        if n > 7 {
            continue;
        }
        let like = generate::well_formed_state(random, &program);
        for bits in 0..1_usize << n {
            let marks: Vec<u8> = (0..n).map(|i| (bits >> i & 1) as u8).collect();
            let counts = if random.percent(80) {
                generate::counts_for(&program, &marks)
            } else {
                like.counts.clone()
            };
            let state = State {
                values: like.values.clone(),
                marks,
                counts,
            };
            let schedule = state.entries();
            tally.meet(compare::run(&program, &state, &schedule, 1).0);
        }
    }
    tally.demand(&[0, 6], 1_000);
}

#[test]
fn wide_and_deep_programs() {
    let random = &mut Random::new(307);
    let tally = &mut Tally::new("run, wide and deep");
    for _ in 0..60 {
        let mut shape = generate::shape(random);
        shape.nodes = random.between(300, 1024);
        shape.depth = random.pick(&[3, 8, 20, 32]);
        shape.width = random.pick(&[2, 30, 1000]);
        shape.exprs = random.between(1, 1024);
        shape.vars = 256;
        shape.chans = 256;
        let program = generate::program(random, &shape);
        let state = generate::well_formed_state(random, &program);
        let schedule = generate::schedule(random, &program, &state, 3);
        tally.meet(compare::run(&program, &state, &schedule, 3).0);
    }
    tally.print();
}

/// WHL 1 {PAR{v0:=v0+1; v1:=v0}} for as many cycles as can be asked, and one short of entries.
#[test]
fn the_longest_run() {
    let mut exprs = Expressions::new();
    let one = exprs.number(1);
    let v0 = exprs.variable(0);
    let more = exprs.sum(v0, one);
    let body = Statement::Par(vec![Statement::Asg(0, more), Statement::Asg(1, v0)]);
    let program = Program::new(exprs, Statement::Whl(one, Box::new(body)), 2, 0);
    let state = State {
        values: vec![5, 0],
        marks: vec![0, 0, 1, 1],
        counts: vec![0, 2, 0, 0],
    };
    let schedule: Vec<u16> = [2, 3, 3, 2].repeat(32768);
    assert_eq!(compare::run(&program, &state, &schedule, 65535), (0, 65535));
    assert_eq!(
        compare::run(&program, &state, &schedule[..131_069], 65535),
        (7, 65534)
    );
}

#[test]
fn sample_papers() {
    for paper in papers::all() {
        for run in &paper.runs {
            let mut state = paper.start.clone();
            let (answer, worked) =
                player::run(&paper.program, &mut state, &run.schedule, run.cycles);
            let expected = Answer::without_item(run.number);
            assert_eq!(answer, expected, "{}", paper.name);
            assert_eq!(worked, run.worked, "{}", paper.name);
            assert_eq!(state, run.after, "{}", paper.name);
        }
    }
}
