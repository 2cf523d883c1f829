//! The sample papers of the rules document, with all that it says comes out of them, and papers of our
//! own, worked by hand: `stored_condition`, `uneven_threads` and all in `widths`, `refusals`,
//! `first_fault`, `files` and `climbs`.

mod channels;
mod climbs;
mod files;
mod first_fault;
mod limits;
mod loops;
mod plain;
mod refusals;
mod widths;

pub use channels::{delayed_out, two_in_on_one_channel, waiting_in_is_no_store};
pub use climbs::{chain, skipped, thread_loop};
pub use files::{counter_file, delay_file, files, input_file, refused_program, PaperFile};
pub use first_fault::first_faults;
pub use limits::{depth_32, depth_33, n_1024, n_1025};
pub use loops::{
    countdown, loop_around_false_loop, loop_around_par, loop_becomes_zero_time, par_of_false_loops,
    stored_condition,
};
pub use plain::{
    equal_values_conflict, one_dly, swap, swap_wrong_book, unequal_values_conflict, uneven_threads,
    wrapping, zero_cycles,
};
pub use refusals::{
    eleven_comes_after_4, eleven_comes_before_5, five_comes_before_6, six_comes_before_10,
    values_too_wide, wrong_counters, wrong_widths,
};
pub use widths::{
    begin_over_rubbish, begin_too_wide, condition_beyond_the_width, one_bit_input, one_bit_loop,
    seven_into_one_bit, six_into_one_bit, twelve_bit_counter, two_stores_to_one_bit,
    wide_formula_of_narrow_variable,
};

use crate::answer::Answer;
use crate::climb::Climb;
use crate::program::{Program, State};

/// A program with starting values, and what the calls give for it.
pub struct Paper {
    pub name: &'static str,
    pub program: Program,
    pub values: Vec<u16>,
    pub begin: u16,
    /// The state after begin; not looked at if begin is refused.
    pub start: State,
    pub runs: Vec<Run>,
}

/// One run from the state after begin.
pub struct Run {
    pub schedule: Vec<u16>,
    pub cycles: u16,
    pub number: u16,
    pub worked: u16,
    pub after: State,
}

/// A cycle, with every turn of the climbs in it. All its entries complete.
pub struct Cycle {
    pub name: &'static str,
    pub program: Program,
    pub before: State,
    /// In the order of the book.
    pub climbs: Vec<Climb>,
    pub after: State,
}

impl Cycle {
    pub fn entries(&self) -> Vec<u16> {
        self.climbs.iter().map(|climb| climb.entry).collect()
    }
}

/// A program and a state that are refused, with nothing written.
pub struct Refusal {
    pub name: &'static str,
    pub program: Program,
    pub state: State,
    /// What check, begin and run give.
    pub numbers: [u16; 3],
    /// The same in all three.
    pub item: u16,
}

impl Refusal {
    pub fn answers(&self) -> [Answer; 3] {
        let item = self.item;
        self.numbers.map(|number| Answer { number, item })
    }
}

/// A program for check alone.
pub struct Limit {
    pub name: &'static str,
    pub program: Program,
    pub answer: Answer,
}

pub fn all() -> Vec<Paper> {
    vec![
        one_dly(),
        swap(),
        swap_wrong_book(),
        equal_values_conflict(),
        delayed_out(),
        two_in_on_one_channel(),
        loop_around_false_loop(),
        par_of_false_loops(),
        loop_around_par(),
        countdown(),
        loop_becomes_zero_time(),
        wrapping(),
        zero_cycles(),
        waiting_in_is_no_store(),
        unequal_values_conflict(),
        stored_condition(),
        uneven_threads(),
        twelve_bit_counter(),
        one_bit_input(),
        one_bit_loop(),
        seven_into_one_bit(),
        six_into_one_bit(),
        begin_too_wide(),
        begin_over_rubbish(),
        wide_formula_of_narrow_variable(),
        condition_beyond_the_width(),
        two_stores_to_one_bit(),
        skipped(),
        chain(),
        thread_loop(),
    ]
}

pub fn cycles() -> Vec<Cycle> {
    let chain = vec![climbs::chain_cycle()];
    [
        climbs::skipped_cycles(),
        chain,
        climbs::thread_loop_cycles(),
    ]
    .into_iter()
    .flatten()
    .collect()
}

pub fn refusals() -> Vec<Refusal> {
    let order = vec![
        eleven_comes_after_4(),
        eleven_comes_before_5(),
        five_comes_before_6(),
        six_comes_before_10(),
    ];
    [
        wrong_widths(),
        wrong_counters(),
        values_too_wide(),
        order,
        first_faults(),
    ]
    .into_iter()
    .flatten()
    .collect()
}

pub fn limits() -> Vec<Limit> {
    vec![n_1024(), n_1025(), depth_32(), depth_33()]
}

/// A state given by its marked nodes and by the thread counts that are not 0.
fn state(program: &Program, values: &[u16], marked: &[usize], counts: &[(usize, u16)]) -> State {
    let n = program.node_count();
    let mut state = State {
        values: values.to_vec(),
        marks: vec![0; n],
        counts: vec![0; n],
    };
    for &i in marked {
        state.marks[i] = 1;
    }
    for &(i, count) in counts {
        state.counts[i] = count;
    }
    state
}
