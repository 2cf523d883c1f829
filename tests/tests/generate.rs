//! What the random programs and files cover. A comparison over programs that all look alike shows
//! little.

use pahmozil_tests::answer::WITH_ITEM;
use pahmozil_tests::file::Buffers;
use pahmozil_tests::generate;
use pahmozil_tests::program::{Program, State, ASG, IF, IN, MOST_DEPTH, MOST_WIDTH, OUT};
use pahmozil_tests::random::Random;
use pahmozil_tests::reference::{self, Tree};
use pahmozil_tests::tally::Tally;
use std::collections::BTreeMap;

fn programs(seed: u64, count: usize) -> Vec<Program> {
    let random = &mut Random::new(seed);
    (0..count)
        .map(|_| {
            let shape = generate::shape(random);
            generate::program(random, &shape)
        })
        .collect()
}

#[test]
fn all_are_accepted() {
    for program in programs(501, 20_000) {
        assert_eq!(reference::check(&program).number, 0, "{program:?}");
    }
}

#[test]
fn climbing_programs_are_accepted() {
    let random = &mut Random::new(510);
    for _ in 0..5_000 {
        let nodes = random.between(1, 100);
        let levels = random.between(1, MOST_DEPTH);
        let (program, _) = generate::climbing(random, nodes, levels);
        assert_eq!(reference::check(&program).number, 0, "{program:?}");
        assert!(program.node_count() <= nodes, "{program:?}");
    }
}

#[test]
fn shapes() {
    let mut met = BTreeMap::<String, usize>::new();
    let mut meet = |what: String| *met.entry(what).or_default() += 1;
    for program in programs(502, 20_000) {
        let tree = Tree::of(&program);
        let nodes = 0..program.node_count();
        if nodes.clone().any(|i| tree.depth(i) == MOST_DEPTH) {
            meet("depth 32".into());
        }
        if nodes.clone().any(|i| tree.children[i].len() >= 16) {
            meet("16 children or more".into());
        }
        for i in nodes {
            meet(format!("kind {}", program.kind(i)));
            if program.kind(i) == IF {
                meet(format!("IF with children: {}", tree.children[i].len()));
            }
        }
    }
    println!("{met:#?}");
    for kind in 1..=8 {
        assert!(met[&format!("kind {kind}")] >= 5_000);
    }
    assert!(met["IF with children: 1"] >= 3_000);
    assert!(met["IF with children: 2"] >= 2_000);
    assert!(met["depth 32"] >= 200);
    assert!(met["16 children or more"] >= 100);
}

#[test]
fn widths() {
    let mut programs = programs(505, 20_000);
    programs.retain(|program| program.vars > 0);
    let wide = |program: &&Program| program.widths.iter().all(|&width| width == MOST_WIDTH);
    let all_wide = programs.iter().filter(wide).count();
    let mut met = [0; MOST_WIDTH as usize + 1];
    for program in &programs {
        for &width in &program.widths {
            met[width as usize] += 1;
        }
    }
    println!("programs with the greatest width throughout: {all_wide}; by width: {met:?}");
    assert!(all_wide >= 4_000);
    assert!(all_wide <= programs.len() / 2);
    assert!(met[1..].iter().all(|&times| times >= 500));
}

/// A fault breaks its question at its place, and nothing else.
fn hold_fault(random: &mut Random, program: &Program, number: u16) {
    let places = generate::places(program, number);
    if places.is_empty() {
        return;
    }
    let at = random.pick(&places);
    let mut faulty = program.clone();
    generate::spoil(random, &mut faulty, number, at);
    let found = WITH_ITEM.map(|other| reference::faults(&faulty, other));
    let expected = WITH_ITEM.map(|other| Vec::from_iter((other == number).then_some(at)));
    assert_eq!(found, expected, "{faulty:?}");
}

#[test]
fn faults() {
    let random = &mut Random::new(508);
    for program in programs(509, 5_000) {
        let numbers = WITH_ITEM.into_iter();
        numbers.for_each(|number| hold_fault(random, &program, number));
    }
}

/// The states before and after each of the first five cycles, as far as they are worked.
fn first_cycles(random: &mut Random, program: &Program) -> Vec<(State, State)> {
    let mut list = Vec::new();
    let Some(mut before) = generate::reached_state(random, program, 0) else {
        return list;
    };
    for _ in 0..5 {
        let (answer, _, after) = reference::run(program, &before, &before.entries(), 1);
        if answer.number != 0 {
            break;
        }
        list.push((before, after.clone()));
        before = after;
    }
    list
}

/// The marked statements of this kind.
fn marked(program: &Program, state: &State, kind: u16) -> Vec<usize> {
    let mut list = state.marked();
    list.retain(|&i| program.kind(i) == kind);
    list
}

/// Variable and expression of each store that an ASG makes.
fn assigned(program: &Program, state: &State) -> Vec<(u16, u16)> {
    let list = marked(program, state, ASG);
    let store = |i: usize| (program.a(i), program.b(i));
    list.into_iter().map(store).collect()
}

/// Variable and expression of each store that an IN makes.
fn received(program: &Program, state: &State) -> Vec<(u16, u16)> {
    let outs = marked(program, state, OUT);
    let store = |i: usize| {
        let out = outs.iter().find(|&&out| program.a(out) == program.a(i))?;
        Some((program.b(i), program.b(*out)))
    };
    let ins = marked(program, state, IN);
    ins.into_iter().filter_map(store).collect()
}

/// Programs of which a run comes to a waiting IN or OUT, and to a completing pair.
#[test]
fn communications() {
    let random = &mut Random::new(503);
    let (mut waits, mut completes) = (0, 0);
    for program in programs(504, 20_000) {
        let (mut waited, mut completed) = (false, false);
        for (before, _) in first_cycles(random, &program) {
            let ends = [IN, OUT].map(|kind| marked(&program, &before, kind).len());
            let pairs = received(&program, &before).len();
            completed |= pairs > 0;
            waited |= ends != [pairs; 2];
        }
        waits += waited as usize;
        completes += completed as usize;
    }
    println!("programs in which a communication waits: {waits}, completes: {completes}");
    assert!(waits >= 3_000);
    assert!(completes >= 2_000);
}

/// Programs of which a run comes to a store that loses bits.
#[test]
fn stores_that_lose_bits() {
    let random = &mut Random::new(506);
    let (mut by_asg, mut by_in) = (0, 0);
    for program in programs(507, 20_000) {
        let (mut asg, mut input) = (false, false);
        for (before, after) in first_cycles(random, &program) {
            let results = reference::evaluate(&program, &before.values);
            let lossy = |(variable, e): &(u16, u16)| {
                after.values[*variable as usize] != results[*e as usize]
            };
            asg |= assigned(&program, &before).iter().any(lossy);
            input |= received(&program, &before).iter().any(lossy);
        }
        by_asg += asg as usize;
        by_in += input as usize;
    }
    println!("programs in which a store loses bits, by an ASG: {by_asg}, by an IN: {by_in}");
    assert!(by_asg >= 1_000);
    assert!(by_in >= 250);
}

/// Most damaged files are refused as files. Of the others some have a program that is refused, and
/// some have the same program or another that is accepted.
#[test]
fn damaged_files() {
    let random = &mut Random::new(507);
    let tally = &mut Tally::new("damaged files");
    for program in programs(508, 20_000) {
        let (program, values) = generate::laid_out(random, program);
        let file = generate::damage_file(random, &program, &values);
        let buffers = Buffers::filled(reference::sizes(&file), 0);
        tally.meet(reference::read(&file, &buffers).0.number);
    }
    tally.demand(&[0, 2, 3], 200);
    assert!(tally.times(12) >= 12_000);
}
