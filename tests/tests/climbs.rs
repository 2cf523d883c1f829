//! Climbs, turn by turn as the reference takes them, in runs that `player_run` works too: how many turns
//! there are beside the nodes of the program, and which.

use pahmozil_tests::climb::{Climb, Turn};
use pahmozil_tests::compare;
use pahmozil_tests::every::every_program;
use pahmozil_tests::expression::Expressions;
use pahmozil_tests::generate;
use pahmozil_tests::longest::{self, Longest};
use pahmozil_tests::papers;
use pahmozil_tests::program::{Program, State, MOST_DEPTH, MOST_NODES};
use pahmozil_tests::random::Random;
use pahmozil_tests::reference;
use pahmozil_tests::statement::Statement::{self, Dly, If, Par, Seq, Whl};
use pahmozil_tests::tally::Tally;
use std::collections::BTreeSet;
use std::iter;

/// Works a book over C and on the reference, which must agree. Gives the number, the climbs of all
/// cycles that are worked, and the state that is left.
fn climbs(program: &Program, start: &State, book: &[u16], cycles: u16) -> (u16, Vec<Climb>, State) {
    let (number, worked, after) = compare::run_to(program, start, book, cycles);
    let mut state = start.clone();
    let mut left = book;
    let mut list = Vec::new();
    for _ in 0..worked {
        let (entries, later) = left.split_at(state.marked().len());
        let (climbs, next) = reference::climbs(program, &state, entries).expect("it was worked");
        list.extend(climbs);
        (state, left) = (next, later);
    }
    assert_eq!(state, after, "{program:?} from {start:?} with {book:?}");
    (number, list, after)
}

/// The node and all above it.
fn depth(program: &Program, i: u16) -> usize {
    let parent = |&i: &u16| (i > 0).then(|| program.parent_word(i as usize));
    iter::successors(Some(i), parent).count()
}

/// The most turns from a leaf of this depth. They leave the leaf, the nodes above it, and next children
/// that finish at once: an IF or a WHL with its child, or what has such a statement below, so that each
/// has two nodes at least.
fn most_turns(nodes: usize, depth: usize) -> usize {
    depth + (nodes - depth) / 2
}

/// The nodes that a climb leaves, in its turns.
fn left(climb: &Climb) -> Vec<u16> {
    climb.turns.iter().map(|turn| turn.left).collect()
}

/// That they are not too many, and that no node is left twice.
fn hold_turns(program: &Program, climb: &Climb) {
    let nodes = program.node_count();
    let turns = climb.turns.len();
    assert!(turns <= nodes, "{program:?}: {climb:?}");
    let most = most_turns(nodes, depth(program, climb.entry));
    assert!(turns <= most, "{program:?}: {climb:?}");
    let once: BTreeSet<u16> = left(climb).into_iter().collect();
    assert_eq!(once.len(), turns, "{program:?}: {climb:?}");
}

/// A book made for this state; gives the number.
fn play(random: &mut Random, program: &Program, state: &State, longest: &mut Longest) -> u16 {
    let cycles = random.between(1, 4);
    let book = generate::schedule(random, program, state, cycles);
    let (number, climbs, _) = climbs(program, state, &book, cycles as u16);
    for climb in &climbs {
        hold_turns(program, climb);
        longest.meet(program, climb);
    }
    number
}

/// As the other comparisons have them.
#[test]
fn random_programs() {
    let random = &mut Random::new(1001);
    let tally = &mut Tally::new("climbs, random programs");
    let longest = &mut Longest::new("random programs");
    while tally.total() < 60_000 {
        let shape = generate::shape(random);
        let program = generate::program(random, &shape);
        if let Some(state) = generate::reached_state(random, &program, 2) {
            tally.meet(play(random, &program, &state, longest));
        }
    }
    tally.demand(&[0, 7, 8, 9, 10], 500);
    longest.print();
}

/// Programs in which climbs take many turns.
#[test]
fn climbing_programs() {
    let random = &mut Random::new(1002);
    let tally = &mut Tally::new("climbs, climbing programs");
    let longest = &mut Longest::new("climbing programs");
    while tally.total() < 200_000 {
        // The largest are worked slowly.
        let at = random.weighted(&[40, 80, 120, 120, 60, 20, 2, 2, 1]);
        let (least, most) = longest::range(at).into_inner();
        let nodes = random.between(least, most);
        let levels = random.pick(&[3, 8, 16, MOST_DEPTH, MOST_DEPTH, MOST_DEPTH]);
        let (program, state) = generate::climbing(random, nodes, levels);
        tally.meet(play(random, &program, &state, longest));
    }
    tally.demand(&[0, 7], 10_000);
    longest.demand([4, 8, 16, 32, 40, 60, 100, 200, 300]);
}

/// The state with this leaf marked and no other.
fn alone(program: &Program, leaf: u16) -> State {
    let mut marks = vec![0; program.node_count()];
    marks[leaf as usize] = 1;
    State {
        values: vec![0; program.vars as usize],
        counts: generate::counts_for(program, &marks),
        marks,
    }
}

const FEW: usize = 8;

/// The most turns met, by N and by the depth of the leaf.
type Table = [[usize; FEW + 1]; FEW + 1];

/// From each leaf. With other leaves marked, a climb may end earlier, at a PAR: so there are none.
fn climb_from_each_leaf(program: &Program, table: &mut Table, tally: &mut Tally) {
    let nodes = program.node_count();
    let leaves = (0..nodes as u16).filter(|&i| program.is_leaf(i as usize));
    for leaf in leaves {
        let (number, climbs, _) = climbs(program, &alone(program, leaf), &[leaf], 1);
        tally.meet(number);
        // A zero-time loop is refused.
        if let [climb] = &climbs[..] {
            hold_turns(program, climb);
            let most = &mut table[nodes][depth(program, leaf)];
            *most = climb.turns.len().max(*most);
        }
    }
}

/// In these `most_turns` is met for every N and every depth.
#[test]
fn every_program_of_few_nodes() {
    let mut table = Table::default();
    let mut tally = Tally::new("climbs, every program of few nodes");
    every_program(FEW, |program| {
        climb_from_each_leaf(&program, &mut table, &mut tally)
    });
    tally.demand(&[0, 10], 100_000);
    for (nodes, met) in table.iter().enumerate().skip(1) {
        println!("N {nodes}, most turns by depth: {:?}", &met[1..=nodes]);
        // A leaf of depth 1 is node 0, and there is no other node.
        let most = (1..=nodes).map(|depth| match depth {
            1 if nodes > 1 => 0,
            _ => most_turns(nodes, depth),
        });
        assert!(most.eq(met[1..=nodes].iter().copied()));
    }
}

/// SEQ around SEQ and so on, and in the innermost a DLY; each with the next children named for it.
fn nested(next_children: Vec<Vec<Statement>>) -> Statement {
    let around = |inner, next| Seq([vec![inner], next].concat());
    next_children.into_iter().rev().fold(Dly, around)
}

/// The one climb of a run to the end. Begin leaves the innermost leaf marked.
fn only_climb(program: &Program, leaf: u16) -> Climb {
    let nodes = program.node_count();
    let number = compare::begin(program, &[], &vec![1; nodes], &vec![9; nodes]);
    assert_eq!(number, 0, "{program:?}");
    let start = reference::begun(program, &[]).expect("begin gave 0");
    assert_eq!(start.entries(), [leaf]);
    let (number, climbs, after) = climbs(program, &start, &[leaf], 5);
    assert_eq!((number, after.marked()), (0, vec![]), "{program:?}");
    let [climb] = &climbs[..] else {
        panic!("{climbs:?}");
    };
    hold_turns(program, climb);
    climb.clone()
}

/// SEQ{SEQ{..{DLY}}}, up to the greatest depth: every node is left.
#[test]
fn chains_take_as_many_turns_as_nodes() {
    for nodes in 1..=MOST_DEPTH {
        let root = nested(vec![vec![]; nodes - 1]);
        let program = Program::new(Expressions::new(), root, 0, 0);
        assert_eq!(program.node_count(), nodes);
        let climb = only_climb(&program, nodes as u16 - 1);
        assert_eq!(climb.turns.len(), nodes);
        assert!(climb.turns.iter().all(|turn| turn.entered.is_none()));
    }
    println!("chains of 1 to {MOST_DEPTH} nodes: as many turns as nodes");
}

/// The greatest depth, with so many IF 0 {DLY} and WHL 0 {DLY} as next children, the first of them in
/// a SEQ of this level, the next in that of the next level, and round again.
fn skipping(levels: &[usize], count: usize) -> Program {
    let mut exprs = Expressions::new();
    let zero = exprs.number(0);
    let mut next_children = vec![vec![]; MOST_DEPTH - 1];
    for (k, &level) in levels.iter().cycle().take(count).enumerate() {
        next_children[level].push(match k % 2 {
            0 => If(zero, vec![Dly]),
            _ => Whl(zero, Box::new(Dly)),
        });
    }
    Program::new(exprs, nested(next_children), 0, 0)
}

/// Of 1,024 nodes the longest climb takes 528 turns: 32 from the innermost leaf up to node 0, and one
/// for each of 496 next children.
#[test]
fn the_longest_climbs() {
    assert_eq!(most_turns(MOST_NODES, MOST_DEPTH), 528);
    let count = (MOST_NODES - MOST_DEPTH) / 2;
    // In the innermost SEQ a next child would have no room for its own child.
    let innermost = MOST_DEPTH - 3;
    let all: Vec<usize> = (0..=innermost).collect();
    for levels in [&[0][..], &[innermost], &[5, 17], &all] {
        let program = skipping(levels, count);
        assert_eq!(program.node_count(), MOST_NODES);
        let climb = only_climb(&program, MOST_DEPTH as u16 - 1);
        assert_eq!(climb.turns.len(), 528);
        let finished = |turn: &&Turn| turn.entered.is_some_and(|entered| !entered.stays);
        assert_eq!(climb.turns.iter().filter(finished).count(), 496);
    }
    println!("N {MOST_NODES}, depth {MOST_DEPTH}: 528 turns");
}

/// SEQ{PAR{DLY; SEQ{DLY; IF 0 {DLY}}; IF 1 {DLY}}; WHL 0 {DLY}; DLY}. The entry that comes last leaves
/// the PAR, node 1, and what stands after it, so that each climb is as the order has it. The state that
/// is left is the same.
#[test]
fn the_order_of_the_entries() {
    let mut exprs = Expressions::new();
    let zero = exprs.number(0);
    let one = exprs.number(1);
    let second = Seq(vec![Dly, If(zero, vec![Dly])]);
    let threads = Par(vec![Dly, second, If(one, vec![Dly])]);
    let root = Seq(vec![threads, Whl(zero, Box::new(Dly)), Dly]);
    let program = Program::new(exprs, root, 0, 0);
    let start = reference::begun(&program, &[]).expect("no loop is met at once");
    let books = [
        [2, 4, 8],
        [2, 8, 4],
        [4, 2, 8],
        [4, 8, 2],
        [8, 2, 4],
        [8, 4, 2],
    ];
    for book in books {
        let (number, climbs, after) = climbs(&program, &start, &book, 1);
        assert_eq!((number, after.entries()), (0, vec![11]), "{book:?}");
        assert_eq!(after.counts, [0; 12], "{book:?}");
        for (at, climb) in climbs.iter().enumerate() {
            let mut expected = match climb.entry {
                2 => vec![2],
                4 => vec![4, 5, 3],
                _ => vec![8, 7],
            };
            if at == 2 {
                expected.extend([1, 9]);
            }
            assert_eq!(left(climb), expected, "{book:?}");
            hold_turns(&program, climb);
        }
    }
}

#[test]
fn sample_cycles() {
    for cycle in papers::cycles() {
        let entries = cycle.entries();
        let (number, climbs, after) = climbs(&cycle.program, &cycle.before, &entries, 1);
        assert_eq!(number, 0, "{}", cycle.name);
        assert_eq!(climbs, cycle.climbs, "{}", cycle.name);
        assert_eq!(after, cycle.after, "{}", cycle.name);
    }
}
