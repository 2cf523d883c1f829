//! `player_check` against the reference.

use pahmozil_tests::compare;
use pahmozil_tests::generate;
use pahmozil_tests::items::Items;
use pahmozil_tests::papers;
use pahmozil_tests::program::{Program, MOST_WIDTH};
use pahmozil_tests::random::Random;
use pahmozil_tests::tally::Tally;

fn accepted(random: &mut Random) -> Program {
    let shape = generate::shape(random);
    generate::program(random, &shape)
}

fn small(random: &mut Random) -> Program {
    let shape = generate::small_shape(random);
    generate::program(random, &shape)
}

/// What was met, over all the programs that were compared.
struct Met {
    numbers: Tally,
    items: Items,
}

impl Met {
    fn compare(&mut self, program: &Program) {
        let number = compare::check(program);
        self.numbers.meet(number);
        self.items.meet(program, number);
    }
}

#[test]
fn random_lists() {
    let random = &mut Random::new(101);
    let met = &mut Met {
        numbers: Tally::new("check"),
        items: Items::new("check"),
    };
    for _ in 0..40_000 {
        assert_eq!(compare::check(&accepted(random)), 0);
        met.numbers.meet(0);
    }
    while met.numbers.total() < 160_000 {
        each_word_changed(random, met);
        each_length_changed(random, met);
    }
    for _ in 0..100_000 {
        let mut program = if random.percent(20) {
            accepted(random)
        } else {
            small(random)
        };
        generate::damage(random, &mut program);
        met.compare(&program);
    }
    for _ in 0..20_000 {
        met.compare(&generate::rubbish(random, 8));
    }
    for _ in 0..1_500 {
        met.compare(&generate::tight_limits(random));
    }
    met.numbers.demand(&[0, 1, 2, 3, 4, 11], 4_000);
    assert!(met.numbers.total() >= 200_000);
    met.items.demand();
}

fn each_word_changed(random: &mut Random, met: &mut Met) {
    let program = small(random);
    for at in 0..program.exprs.len() {
        for word in generate::changes(random, &program, program.exprs[at]) {
            let mut other = program.clone();
            other.exprs[at] = word;
            met.compare(&other);
        }
    }
    for at in 0..program.nodes.len() {
        for word in generate::changes(random, &program, program.nodes[at]) {
            let mut other = program.clone();
            other.nodes[at] = word;
            met.compare(&other);
        }
    }
    for at in 0..program.widths.len() {
        for width in generate::other_widths(random, program.widths[at]) {
            let mut other = program.clone();
            other.widths[at] = width;
            met.compare(&other);
        }
    }
    for word in generate::changes(random, &program, program.vars) {
        met.compare(&Program {
            vars: word,
            ..program.clone()
        });
    }
    for word in generate::changes(random, &program, program.chans) {
        met.compare(&Program {
            chans: word,
            ..program.clone()
        });
    }
}

fn each_length_changed(random: &mut Random, met: &mut Met) {
    let program = small(random);
    for length in 0..program.exprs.len() {
        let mut other = program.clone();
        other.exprs.truncate(length);
        met.compare(&other);
    }
    for length in 0..program.nodes.len() {
        let mut other = program.clone();
        other.nodes.truncate(length);
        met.compare(&other);
    }
    for length in 0..=program.widths.len() + 2 {
        let mut other = program.clone();
        other.widths.resize(length, MOST_WIDTH);
        met.compare(&other);
    }
}

#[test]
fn empty_lists() {
    let program = Program {
        exprs: vec![],
        nodes: vec![],
        widths: vec![],
        vars: 0,
        chans: 0,
    };
    assert_eq!(compare::check(&program), 1);
}

#[test]
fn sample_papers() {
    for paper in papers::all() {
        assert_eq!(compare::check(&paper.program), 0, "{}", paper.name);
    }
}

#[test]
fn n_1024_passes() {
    assert_eq!(compare::check(&papers::n_1024().program), 0);
}

#[test]
fn n_1025_gives_1() {
    assert_eq!(compare::check(&papers::n_1025().program), 1);
}

#[test]
fn depth_32_passes() {
    assert_eq!(compare::check(&papers::depth_32().program), 0);
}

#[test]
fn depth_33_gives_3() {
    assert_eq!(compare::check(&papers::depth_33().program), 3);
}
