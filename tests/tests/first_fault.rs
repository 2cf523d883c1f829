//! The item of an answer, over the C interface: in the refusals that were worked by hand, and in a
//! program as large as can be, with faults at places that are known.

use pahmozil_tests::answer::{Answer, WITH_ITEM};
use pahmozil_tests::generate::{places, spoil};
use pahmozil_tests::papers;
use pahmozil_tests::player;
use pahmozil_tests::program::{Program, State, MOST_VARS, MOST_WIDTH};
use pahmozil_tests::random::Random;
use pahmozil_tests::workloads;

#[test]
fn refusals_worked_by_hand() {
    for refusal in papers::refusals() {
        let answers = player::all_three(&refusal.program, &refusal.state);
        assert_eq!(answers, refusal.answers(), "{}", refusal.name);
    }
}

/// Lists as long as they should be, with marks and counts that no state has.
fn lent(program: &Program) -> State {
    State {
        values: vec![0; program.vars as usize],
        marks: vec![255; program.node_count()],
        counts: vec![9; program.node_count()],
    }
}

/// All three calls give this answer.
fn hold(program: &Program, number: u16, item: usize) {
    let item = item as u16;
    let answers = player::all_three(program, &lent(program));
    assert_eq!(answers, [Answer { number, item }; 3]);
}

#[test]
fn the_largest_program_is_accepted() {
    let program = workloads::largest();
    assert_eq!(player::check(&program), Answer::without_item(0));
    let ends = WITH_ITEM.map(|number| {
        let places = places(&program, number);
        (places[0], places[places.len() - 1])
    });
    assert_eq!(ends, [(0, 1023), (0, 1023), (0, 1023), (0, 255)]);
}

/// The number of a question and the place at which it is broken.
type Fault = (u16, usize);

/// All the faults of this question that the program can have, in order.
fn every_fault(program: &Program, number: u16) -> Vec<Fault> {
    let places = places(program, number).into_iter();
    places.map(|at| (number, at)).collect()
}

/// So many of them, or as many as there are, in order.
fn some_faults(random: &mut Random, program: &Program, number: u16, count: usize) -> Vec<Fault> {
    let mut faults = every_fault(program, number);
    random.shuffle(&mut faults);
    faults.truncate(count);
    faults.sort();
    faults
}

fn spoiled(random: &mut Random, program: &Program, faults: &[Fault]) -> Program {
    let mut program = program.clone();
    // The later question first: a node that has lost its kind has lost its names with it.
    for &(number, at) in faults.iter().rev() {
        spoil(random, &mut program, number, at);
    }
    program
}

/// A program with all of these faults, which are in order, is refused for the first.
fn hold_first(random: &mut Random, program: &Program, faults: &[Fault]) {
    let (number, at) = faults[0];
    hold(&spoiled(random, program, faults), number, at);
}

#[test]
fn every_place_alone() {
    let random = &mut Random::new(1001);
    let program = workloads::largest();
    let faults = WITH_ITEM.map(|number| every_fault(&program, number));
    for fault in faults.concat() {
        hold_first(random, &program, &[fault]);
    }
}

#[test]
fn the_lowest_of_several() {
    let random = &mut Random::new(1002);
    let program = workloads::largest();
    for case in 0..4_000 {
        let number = WITH_ITEM[case % WITH_ITEM.len()];
        let count = random.pick(&[2, 2, 3, 10, 100]);
        let faults = some_faults(random, &program, number, count);
        hold_first(random, &program, &faults);
    }
}

/// The first fault is mended, again and again.
fn mend(random: &mut Random, program: &Program, faults: &[Fault]) {
    for first in 0..faults.len() {
        hold_first(random, program, &faults[first..]);
    }
}

#[test]
fn mended_from_the_top() {
    let random = &mut Random::new(1003);
    let program = workloads::largest();
    for _ in 0..200 {
        let faults = WITH_ITEM.map(|number| {
            let count = random.between(1, 5);
            some_faults(random, &program, number, count)
        });
        mend(random, &program, &faults.concat());
    }
}

/// If there is not one width for each variable, none of them is named.
#[test]
fn every_wrong_number_of_widths() {
    let random = &mut Random::new(1004);
    let vars = MOST_VARS as usize;
    for length in (0..=2 * vars).filter(|&length| length != vars) {
        let program = workloads::largest().with_widths(&vec![MOST_WIDTH; length]);
        let faults = some_faults(random, &program, 11, 3);
        hold(&spoiled(random, &program, &faults), 11, 0);
    }
}
