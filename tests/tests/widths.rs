//! Widths over the C interface: every word as a width, and every width with every value.

use pahmozil_tests::answer::Answer;
use pahmozil_tests::expression::Expressions;
use pahmozil_tests::papers;
use pahmozil_tests::player;
use pahmozil_tests::program::{Program, State};
use pahmozil_tests::statement::Statement::{Asg, In, Out, Par};

fn parts(answer: Answer) -> (u16, u16) {
    (answer.number, answer.item)
}

#[test]
fn begin_over_rubbish() {
    let program = papers::begin_over_rubbish().program;
    let (mut marks, mut counts) = ([255, 0, 2], [65535, 7, 1]);
    let answer = player::begin(&program, &[15], &mut marks, &mut counts);
    assert_eq!(parts(answer), (0, 0));
    assert_eq!((marks, counts), ([0, 1, 1], [2, 0, 0]));
}

/// PAR{v0:=v2; OUT c0 v2; IN c0 v1} in its first cycle, where v0 and v1 have this width and v2 has 16.
fn two_stores(width: u16) -> (Program, State) {
    let mut exprs = Expressions::new();
    let v2 = exprs.variable(2);
    let root = Par(vec![Asg(0, v2), Out(0, v2), In(0, 1)]);
    let program = Program::new(exprs, root, 3, 1).with_widths(&[width, width, 16]);
    let state = State {
        values: vec![0, 0, 0],
        marks: vec![0, 1, 1, 1],
        counts: vec![3, 0, 0, 0],
    };
    (program, state)
}

/// Of v1 and of v2.
#[test]
fn every_word_as_a_width() {
    let (program, _) = two_stores(16);
    for width in 0..=65535 {
        let program = program.clone().with_widths(&[16, width, width]);
        let right = (1..=16).contains(&width);
        let expected = if right { (0, 0) } else { (11, 1) };
        assert_eq!(parts(player::check(&program)), expected, "width {width}");
    }
}

/// Where the length of the list is cut to 16 bits, it is that of the variables.
#[test]
fn far_too_many_widths() {
    let (program, _) = two_stores(16);
    let mut program = program.with_widths(&[16; 65_536 + 3]);
    assert_eq!(parts(player::check(&program)), (11, 0));
    program.widths[1] = 0;
    assert_eq!(parts(player::check(&program)), (11, 0));
}

/// By the ASG and by the IN. Both variables start with each bit other than it will be.
#[test]
fn every_value_stored_at_every_width() {
    for width in 1..=16 {
        let (program, mut state) = two_stores(width);
        let start = state.clone();
        for value in 0..=65535_u32 {
            let beyond = 1 << width;
            let kept = (value % beyond) as u16;
            let other = (beyond - 1) as u16 - kept;
            state.clone_from(&start);
            state.values.copy_from_slice(&[other, other, value as u16]);
            let (answer, worked) = player::run(&program, &mut state, &[1, 2, 3], 5);
            let case = || format!("{value} at width {width}");
            assert_eq!((parts(answer), worked), ((0, 0), 1), "{}", case());
            assert_eq!(state.values, [kept, kept, value as u16], "{}", case());
            assert_eq!(
                (&state.marks[..], &state.counts[..]),
                (&[0; 4][..], &[0; 4][..])
            );
        }
    }
}

/// Begin and run let by a value that is below two to the power of the width, and no other.
#[test]
fn every_value_held_at_every_width() {
    for width in 1..=16 {
        let (program, mut state) = two_stores(width);
        for value in 0..=65535_u32 {
            let number = if value < 1 << width { 0 } else { 6 };
            state.values[1] = value as u16;
            let (answer, worked) = player::run(&program, &mut state, &[], 0);
            assert_eq!(
                (parts(answer), worked),
                ((number, 0), 0),
                "{value}, {width}"
            );
            let State { marks, counts, .. } = &mut state;
            let answer = player::begin(&program, &[0, value as u16, 0], marks, counts);
            assert_eq!(parts(answer), (number, 0), "{value}, {width}");
        }
    }
}
