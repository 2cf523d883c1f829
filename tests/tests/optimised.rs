//! What is written for speed, run, read and write, against the reference.

use pahmozil_tests::answer::Answer;
use pahmozil_tests::expression::Expressions;
use pahmozil_tests::file::{Buffers, Sizes};
use pahmozil_tests::generate;
use pahmozil_tests::optimised;
use pahmozil_tests::papers;
use pahmozil_tests::program::{Program, State};
use pahmozil_tests::random::Random;
use pahmozil_tests::reference;
use pahmozil_tests::statement::Statement;
use pahmozil_tests::tally::Tally;

/// One case; gives the number and the cycles worked.
fn hold(program: &Program, state: &State, schedule: &[u16], cycles: u16) -> (u16, u16) {
    let (answer, worked, after) = reference::run(program, state, schedule, cycles);
    let case = || format!("{program:?} from {state:?} with {schedule:?}, {cycles} cycles");
    for run in [optimised::run, optimised::run_compiled] {
        let mut got = state.clone();
        let given = run(program, &mut got, schedule, cycles);
        assert_eq!(given, (answer, worked), "{}", case());
        assert_eq!(got, after, "{}", case());
    }
    // Else the reference could have answered for both.
    let taken = optimised::takes(program, state);
    assert_eq!(taken, !matches!(answer.number, 1..=6 | 11), "{}", case());
    (answer.number, worked)
}

fn some_program(random: &mut Random) -> Program {
    let shape = if random.percent(40) {
        generate::shape(random)
    } else {
        generate::small_shape(random)
    };
    generate::program(random, &shape)
}

/// A run with a schedule made for this state, which may be too short.
fn ask(random: &mut Random, program: &Program, state: &State) -> (u16, u16) {
    let cycles = random.pick(&[0, 1, 2, 3, 4, 5, 6, 12, 25, 65535]);
    let made = random.pick(&[2, 4, 6, 25]).min(cycles as usize + 1);
    let schedule = generate::schedule(random, program, state, made);
    hold(program, state, &schedule, cycles)
}

#[test]
fn states_that_runs_reach() {
    let random = &mut Random::new(601);
    let tally = &mut Tally::new("optimised, reached states");
    let late = &mut Tally::new("optimised, of these after one cycle or more");
    while tally.total() < 60_000 {
        let program = some_program(random);
        for before in [0, 0, 4] {
            if let Some(state) = generate::reached_state(random, &program, before) {
                let (number, worked) = ask(random, &program, &state);
                tally.meet(number);
                if worked > 0 {
                    late.meet(number);
                }
            }
        }
    }
    tally.demand(&[0, 7, 8, 9, 10], 500);
    late.demand(&[0, 7, 8, 9, 10], 100);
}

#[test]
fn well_formed_states_that_no_run_need_reach() {
    let random = &mut Random::new(602);
    let tally = &mut Tally::new("optimised, well-formed states");
    while tally.total() < 40_000 {
        let program = some_program(random);
        let state = generate::well_formed_state(random, &program);
        tally.meet(ask(random, &program, &state).0);
    }
    tally.demand(&[0, 7, 8, 9, 10], 500);
}

#[test]
fn damaged_states_and_programs() {
    let random = &mut Random::new(603);
    let tally = &mut Tally::new("optimised, damaged");
    while tally.total() < 60_000 {
        let mut program = some_program(random);
        let mut state = generate::well_formed_state(random, &program);
        let schedule = generate::schedule(random, &program, &state, 3);
        if random.percent(50) {
            generate::damage(random, &mut program);
        } else {
            generate::damaged_state(random, &program, &mut state);
        }
        tally.meet(hold(&program, &state, &schedule, 3).0);
    }
    tally.demand(&[0, 1, 2, 3, 4, 5, 6, 11], 500);
}

#[test]
fn long_climbs() {
    let random = &mut Random::new(611);
    let tally = &mut Tally::new("optimised, long climbs");
    while tally.total() < 20_000 {
        let nodes = random.between(1, 80);
        let levels = random.pick(&[3, 8, 32]);
        let (program, state) = generate::climbing(random, nodes, levels);
        tally.meet(ask(random, &program, &state).0);
    }
    tally.demand(&[0, 7], 1_000);
}

/// The ended state of a program, with lists as long as they should be.
fn ended(program: &Program) -> State {
    State {
        values: vec![0; program.vars as usize],
        marks: vec![0; program.node_count()],
        counts: vec![0; program.node_count()],
    }
}

#[test]
fn limits() {
    let random = &mut Random::new(607);
    let tally = &mut Tally::new("optimised, limits");
    for _ in 0..1_000 {
        let program = generate::tight_limits(random);
        tally.meet(hold(&program, &ended(&program), &[], 1).0);
    }
    tally.demand(&[0, 1, 3, 11], 50);
    let none = Program {
        exprs: vec![],
        nodes: vec![],
        widths: vec![],
        vars: 0,
        chans: 0,
    };
    assert_eq!(hold(&none, &ended(&none), &[], 1), (1, 0));
}

/// Expressions that many others share, in every arrangement that the random lists have.
#[test]
fn many_expressions() {
    let random = &mut Random::new(604);
    let tally = &mut Tally::new("optimised, many expressions");
    while tally.total() < 4_000 {
        let mut shape = generate::small_shape(random);
        shape.nodes = random.between(10, 30);
        shape.exprs = random.between(20, 120);
        shape.vars = 4;
        let program = generate::program(random, &shape);
        if let Some(state) = generate::reached_state(random, &program, 2) {
            let right = generate::right_schedule(random, &program, &state, 12);
            tally.meet(hold(&program, &state, &right.concat(), 12).0);
        }
    }
    tally.demand(&[0], 500);
}

#[test]
fn wide_and_deep_programs() {
    let random = &mut Random::new(605);
    let tally = &mut Tally::new("optimised, wide and deep");
    for _ in 0..60 {
        let mut shape = generate::shape(random);
        shape.nodes = random.between(300, 1024);
        shape.depth = random.pick(&[3, 8, 20, 32]);
        shape.width = random.pick(&[2, 30, 1000]);
        shape.exprs = random.between(1, 1024);
        shape.vars = 256;
        shape.chans = 256;
        let program = generate::program(random, &shape);
        let state = generate::well_formed_state(random, &program);
        let schedule = generate::schedule(random, &program, &state, 3);
        tally.meet(hold(&program, &state, &schedule, 3).0);
    }
    tally.print();
}

#[test]
fn refusals_after_hundreds_of_cycles() {
    let random = &mut Random::new(608);
    let tally = &mut Tally::new("optimised, refused after 100 cycles or more");
    for case in 0..1_200 {
        let number = 8 + case % 3;
        let worked = random.between(100, 500) as u16;
        let (program, state) = generate::late(random, number, worked);
        let schedule = optimised::ascending_schedule(&program, &state, 600);
        assert_eq!(hold(&program, &state, &schedule, 600), (number, worked));
        tally.meet(number);
        // With fewer entries than the last cycles take.
        let short = &schedule[..schedule.len() - state.marked().len()];
        tally.meet(hold(&program, &state, short, 600).0);
    }
    tally.demand(&[7, 8, 9, 10], 400);
}

/// WHL 1 {PAR{v0:=v0+1; v1:=v0}} for as many cycles as can be asked, and one short of entries.
#[test]
fn the_longest_run() {
    let mut exprs = Expressions::new();
    let one = exprs.number(1);
    let v0 = exprs.variable(0);
    let more = exprs.sum(v0, one);
    let body = Statement::Par(vec![Statement::Asg(0, more), Statement::Asg(1, v0)]);
    let program = Program::new(exprs, Statement::Whl(one, Box::new(body)), 2, 0);
    let state = State {
        values: vec![5, 0],
        marks: vec![0, 0, 1, 1],
        counts: vec![0, 2, 0, 0],
    };
    let schedule = optimised::ascending_schedule(&program, &state, 65535);
    assert_eq!(schedule, [2, 3].repeat(65535));
    assert_eq!(hold(&program, &state, &schedule, 65535), (0, 65535));
    let short = &schedule[..131_069];
    assert_eq!(hold(&program, &state, short, 65535), (7, 65534));
}

#[test]
fn ascending_schedules() {
    let random = &mut Random::new(606);
    let tally = &mut Tally::new("optimised, ascending schedules");
    while tally.total() < 5_000 {
        let program = some_program(random);
        let state = generate::well_formed_state(random, &program);
        let schedule = optimised::ascending_schedule(&program, &state, 6);
        let mut expected = Vec::new();
        let mut before = state.clone();
        for _ in 0..6 {
            let entries = before.entries();
            let (answer, _, after) = reference::run(&program, &before, &entries, 1);
            expected.extend(entries);
            before = after;
            if answer.number != 0 {
                break;
            }
        }
        assert_eq!(schedule, expected, "{program:?} from {state:?}");
        tally.meet(hold(&program, &state, &schedule, 6).0);
    }
    tally.demand(&[0, 8, 9, 10], 50);
}

#[test]
fn sample_papers() {
    for paper in papers::all() {
        for run in &paper.runs {
            for optimised in [optimised::run, optimised::run_compiled] {
                let mut state = paper.start.clone();
                let answer = optimised(&paper.program, &mut state, &run.schedule, run.cycles);
                let expected = (Answer::without_item(run.number), run.worked);
                assert_eq!(answer, expected, "{}", paper.name);
                assert_eq!(state, run.after, "{}", paper.name);
            }
        }
    }
    for refusal in papers::refusals() {
        let answer = hold(&refusal.program, &refusal.state, &[], 5);
        assert_eq!(answer, (refusal.numbers[2], 0), "{}", refusal.name);
    }
}

/// Sizes and reading; gives the number of the latter.
fn hold_read(file: &[u8], buffers: &Buffers) -> u16 {
    assert_eq!(optimised::sizes(file), reference::sizes(file), "{file:?}");
    let (answer, after) = reference::read(file, buffers);
    let mut got = buffers.clone();
    assert_eq!(optimised::read(file, &mut got), answer, "{file:?}");
    assert_eq!(got, after, "{file:?} into {buffers:?}");
    answer.number
}

fn hold_write(program: &Program, values: &[u16], lent: &[u8]) -> u16 {
    let (answer, after) = reference::write(program, values, lent);
    let mut got = lent.to_vec();
    let case = || format!("{program:?} with {values:?} into {lent:?}");
    let given = optimised::write(program, values, &mut got);
    assert_eq!(given, answer, "{}", case());
    assert_eq!(got, after, "{}", case());
    answer.number
}

#[test]
fn files_read() {
    let random = &mut Random::new(609);
    let tally = &mut Tally::new("optimised, read");
    for _ in 0..100_000 {
        let program = generate::any_program(random);
        let (program, values) = generate::laid_out(random, program);
        let file = if random.percent(25) {
            generate::damage_file(random, &program, &values)
        } else {
            reference::bytes(&program, &values)
        };
        let buffers = generate::buffers(random, reference::sizes(&file));
        tally.meet(hold_read(&file, &buffers));
    }
    tally.demand(&[0, 12, 1, 2, 3, 4, 11, 13], 500);
}

#[test]
fn files_written() {
    let random = &mut Random::new(610);
    let tally = &mut Tally::new("optimised, write");
    for _ in 0..100_000 {
        let program = generate::any_program(random);
        let vars = program.vars.min(300) as usize;
        let values = vec![random.word(); random.pick(&[vars, vars, vars, vars + 1, 0])];
        let need = reference::bytes(&program, &values).len();
        let lengths = [need, need + 1, need + 30, need - 1, 0];
        let lent = vec![random.word() as u8; random.pick(&lengths)];
        tally.meet(hold_write(&program, &values, &lent));
    }
    tally.demand(&[0, 1, 2, 3, 4, 11, 5, 13], 500);
}

#[test]
fn sample_files() {
    for sample in papers::files() {
        let sizes = Sizes::of(&sample.program);
        let lent = vec![0xa5; sample.bytes.len() + 3];
        assert_eq!(hold_read(sample.bytes, &Buffers::filled(sizes, 9)), 0);
        assert_eq!(hold_write(&sample.program, &sample.values, &lent), 0);
        for length in 0..sample.bytes.len() {
            let cut = &sample.bytes[..length];
            assert_eq!(hold_read(cut, &Buffers::filled(sizes, 9)), 12);
        }
    }
}
