//! `player_begin` against the reference.

use pahmozil_tests::answer::Answer;
use pahmozil_tests::compare;
use pahmozil_tests::generate;
use pahmozil_tests::items::Items;
use pahmozil_tests::papers::{self, Paper};
use pahmozil_tests::player;
use pahmozil_tests::program::{Program, MOST_WIDTH};
use pahmozil_tests::random::Random;
use pahmozil_tests::tally::Tally;

/// What stands in a list before the call, which must not be read.
fn old_marks(random: &mut Random, length: usize) -> Vec<u8> {
    (0..length).map(|_| random.word() as u8).collect()
}

fn old_counts(random: &mut Random, length: usize) -> Vec<u16> {
    (0..length).map(|_| random.word()).collect()
}

fn other_length(random: &mut Random, length: usize) -> usize {
    let lengths = [
        0,
        length.saturating_sub(1),
        length + 1,
        length + 5,
        2 * length,
    ];
    random.pick(&lengths)
}

fn one_case(random: &mut Random, program: &Program) -> u16 {
    let mut lengths = [
        program.vars as usize,
        program.node_count(),
        program.node_count(),
    ];
    if random.percent(10) {
        let which = random.below(3);
        lengths[which] = other_length(random, lengths[which]);
    }
    // Values for every variable that a refused program claims to have would only cost time.
    let mut widths = program.widths.clone();
    widths.resize(lengths[0].min(300), MOST_WIDTH);
    let mut values = generate::values(random, &widths);
    if random.percent(10) {
        generate::widen(random, &widths, &mut values);
    }
    let marks = old_marks(random, lengths[1]);
    let counts = old_counts(random, lengths[2]);
    compare::begin(program, &values, &marks, &counts)
}

#[test]
fn random_programs() {
    let random = &mut Random::new(202);
    let tally = &mut Tally::new("begin");
    let items = &mut Items::new("begin");
    for case in 0..220_000 {
        let shape = if case % 2 == 0 {
            generate::shape(random)
        } else {
            generate::small_shape(random)
        };
        let mut program = generate::program(random, &shape);
        if case % 3 == 0 {
            generate::damage(random, &mut program);
        }
        let number = one_case(random, &program);
        tally.meet(number);
        items.meet(&program, number);
    }
    for _ in 0..200 {
        let program = generate::tight_limits(random);
        tally.meet(one_case(random, &program));
    }
    tally.demand(&[0, 1, 2, 3, 4, 5, 6, 10, 11], 3_000);
    assert!(tally.total() >= 200_000);
    items.demand();
}

/// On lists that hold what no state has.
#[test]
fn sample_papers() {
    for paper in papers::all() {
        hold(&paper, 1, 9);
        hold(&paper, 255, 65535);
    }
}

fn hold(paper: &Paper, old_mark: u8, old_count: u16) {
    let n = paper.program.node_count();
    let old = (vec![old_mark; n], vec![old_count; n]);
    let (mut marks, mut counts) = old.clone();
    let answer = player::begin(&paper.program, &paper.values, &mut marks, &mut counts);
    let expected = Answer::without_item(paper.begin);
    assert_eq!(answer, expected, "{}", paper.name);
    if paper.begin == 0 {
        assert_eq!(marks, paper.start.marks, "{}", paper.name);
        assert_eq!(counts, paper.start.counts, "{}", paper.name);
    } else {
        assert_eq!((marks, counts), old, "{}", paper.name);
    }
}
