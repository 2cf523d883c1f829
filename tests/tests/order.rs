//! The order rule: the order of the entries within each cycle changes nothing. It is tried out
//! here with every order, on the reference and on the player.

use pahmozil_tests::answer::Answer;
use pahmozil_tests::generate;
use pahmozil_tests::program::{Program, State};
use pahmozil_tests::random::Random;
use pahmozil_tests::reference;

type Outcome = (Answer, u16, State);
type Play = fn(&Program, &State, &[u16], u16) -> Outcome;

/// More active statements have more orders than can all be tried.
const MOST_ACTIVE: usize = 6;
const MOST_WHOLES: usize = 150;

fn play_player(program: &Program, state: &State, schedule: &[u16], cycles: u16) -> Outcome {
    let mut after = state.clone();
    let (answer, worked) = pahmozil_tests::player::run(program, &mut after, schedule, cycles);
    (answer, worked, after)
}

fn orders(entries: &[u16]) -> Vec<Vec<u16>> {
    if entries.is_empty() {
        return vec![vec![]];
    }
    let mut list = Vec::new();
    for at in 0..entries.len() {
        let mut rest = entries.to_vec();
        let first = rest.remove(at);
        for mut order in orders(&rest) {
            order.insert(0, first);
            list.push(order);
        }
    }
    list
}

fn a_state(random: &mut Random, program: &Program) -> State {
    if random.percent(60) {
        if let Some(state) = generate::reached_state(random, program, 3) {
            return state;
        }
    }
    generate::well_formed_state(random, program)
}

fn a_program(random: &mut Random) -> Program {
    let mut shape = generate::small_shape(random);
    shape.nodes = random.between(4, 16);
    shape.width = random.between(2, 6);
    // A cycle with one active statement has one order only.
    shape.weights[1] += 8;
    generate::program(random, &shape)
}

/// Every order of one cycle, then of the next, and so on for a few cycles.
fn every_order_of_each_cycle(play: Play, seed: u64) {
    let random = &mut Random::new(seed);
    let mut tried = [0; MOST_ACTIVE + 1];
    let mut numbers = [0; 11];
    for _ in 0..30_000 {
        let program = a_program(random);
        let mut state = a_state(random, &program);
        for _ in 0..3 {
            let entries = state.entries();
            if entries.is_empty() || entries.len() > MOST_ACTIVE {
                break;
            }
            let outcome = play(&program, &state, &entries, 1);
            for order in orders(&entries) {
                let other = play(&program, &state, &order, 1);
                assert_eq!(other, outcome, "{program:?} from {state:?}, {order:?}");
            }
            tried[entries.len()] += 1;
            numbers[outcome.0.number as usize] += 1;
            if outcome.0.number != 0 {
                break;
            }
            state = outcome.2;
        }
    }
    println!("cycles by number of active statements: {tried:?}; by number: {numbers:?}");
    assert!(tried[2..].iter().all(|&times| times >= 300));
    assert!([0, 8, 9, 10].iter().all(|&number| numbers[number] >= 300));
}

/// Whole schedules that differ only within cycles.
fn every_whole_schedule(play: Play, seed: u64) {
    let random = &mut Random::new(seed);
    let mut several_cycles = 0;
    for _ in 0..20_000 {
        let program = a_program(random);
        let state = a_state(random, &program);
        let cycles = random.between(1, 5);
        let right = generate::right_schedule(random, &program, &state, cycles);
        let outcome = play(&program, &state, &right.concat(), cycles as u16);
        assert_ne!(outcome.0.number, 7, "{program:?} from {state:?}, {right:?}");
        if right.iter().any(|entries| entries.len() > MOST_ACTIVE) {
            continue;
        }
        let wholes = wholes(random, &right);
        if right.len() > 1 && wholes.len() > 1 {
            several_cycles += 1;
        }
        for whole in wholes {
            let other = play(&program, &state, &whole, cycles as u16);
            assert_eq!(other, outcome, "{program:?} from {state:?}, {whole:?}");
        }
    }
    println!("programs with orders through several cycles: {several_cycles}");
    assert!(several_cycles >= 2_000);
}

/// Every way to order the entries of each cycle, or some of them if they are very many.
fn wholes(random: &mut Random, cycles: &[Vec<u16>]) -> Vec<Vec<u16>> {
    let all: usize = cycles
        .iter()
        .map(|entries| (1..=entries.len()).product::<usize>())
        .product();
    if all > MOST_WHOLES {
        return (0..MOST_WHOLES)
            .map(|_| some_whole(random, cycles))
            .collect();
    }
    let mut list = vec![vec![]];
    for entries in cycles {
        let orders = orders(entries);
        list = list
            .iter()
            .flat_map(|before| {
                orders
                    .iter()
                    .map(move |order| [&before[..], order].concat())
            })
            .collect();
    }
    list
}

fn some_whole(random: &mut Random, cycles: &[Vec<u16>]) -> Vec<u16> {
    let mut cycles = cycles.to_vec();
    for entries in &mut cycles {
        random.shuffle(entries);
    }
    cycles.concat()
}

/// A wrong cycle stays the first wrong one, however the entries of each cycle are ordered.
fn wrong_schedules(play: Play, seed: u64) {
    let random = &mut Random::new(seed);
    let mut wrong = 0;
    for _ in 0..20_000 {
        let program = a_program(random);
        let state = a_state(random, &program);
        let right = generate::right_schedule(random, &program, &state, 5);
        let schedule = generate::flawed_schedule(random, &program, &right);
        let outcome = play(&program, &state, &schedule, 5);
        let mut other = schedule.clone();
        let mut from = 0;
        // The run read as many entries for each cycle as marks stood before it.
        for k in 0..=outcome.1 {
            let (_, _, before) = play(&program, &state, &schedule, k);
            let upto = other.len().min(from + before.marked().len());
            random.shuffle(&mut other[from..upto]);
            from = upto;
        }
        assert_eq!(
            play(&program, &state, &other, 5),
            outcome,
            "{program:?} from {state:?}"
        );
        wrong += (outcome.0.number == 7) as usize;
    }
    println!("wrong schedules: {wrong}");
    assert!(wrong >= 5_000);
}

#[test]
fn every_order_of_each_cycle_on_the_reference() {
    every_order_of_each_cycle(reference::run, 401);
}

#[test]
fn every_whole_schedule_on_the_reference() {
    every_whole_schedule(reference::run, 402);
}

#[test]
fn wrong_schedules_on_the_reference() {
    wrong_schedules(reference::run, 403);
}

#[test]
fn every_order_of_each_cycle_on_the_player() {
    every_order_of_each_cycle(play_player, 404);
}

#[test]
fn every_whole_schedule_on_the_player() {
    every_whole_schedule(play_player, 405);
}

#[test]
fn wrong_schedules_on_the_player() {
    wrong_schedules(play_player, 406);
}
