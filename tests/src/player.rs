//! The player's C interface. A list is passed as a pointer and its length in elements.

use crate::answer::Answer;
use crate::program::Program;
use crate::program::State;

extern "C" {
    fn player_check(
        exprs: *const u16,
        exprs_len: usize,
        nodes: *const u16,
        nodes_len: usize,
        widths: *const u16,
        widths_len: usize,
        vars: u16,
        chans: u16,
    ) -> u32;

    fn player_begin(
        exprs: *const u16,
        exprs_len: usize,
        nodes: *const u16,
        nodes_len: usize,
        widths: *const u16,
        widths_len: usize,
        vars: u16,
        chans: u16,
        values: *const u16,
        values_len: usize,
        marks: *mut u8,
        marks_len: usize,
        counts: *mut u16,
        counts_len: usize,
    ) -> u32;

    fn player_run(
        exprs: *const u16,
        exprs_len: usize,
        nodes: *const u16,
        nodes_len: usize,
        widths: *const u16,
        widths_len: usize,
        vars: u16,
        chans: u16,
        values: *mut u16,
        values_len: usize,
        marks: *mut u8,
        marks_len: usize,
        counts: *mut u16,
        counts_len: usize,
        book: *const u16,
        book_len: usize,
        cycles: u16,
    ) -> u64;
}

fn answer(word: u32) -> Answer {
    Answer {
        number: word as u16,
        item: (word >> 16) as u16,
    }
}

pub fn check(program: &Program) -> Answer {
    // Sound: the pointers and lengths are those of live slices, which the call only reads.
    let word = unsafe {
        player_check(
            program.exprs.as_ptr(),
            program.exprs.len(),
            program.nodes.as_ptr(),
            program.nodes.len(),
            program.widths.as_ptr(),
            program.widths.len(),
            program.vars,
            program.chans,
        )
    };
    answer(word)
}

pub fn begin(program: &Program, values: &[u16], marks: &mut [u8], counts: &mut [u16]) -> Answer {
    // Sound: as above, and the two lists that the call writes are borrowed for it alone.
    let word = unsafe {
        player_begin(
            program.exprs.as_ptr(),
            program.exprs.len(),
            program.nodes.as_ptr(),
            program.nodes.len(),
            program.widths.as_ptr(),
            program.widths.len(),
            program.vars,
            program.chans,
            values.as_ptr(),
            values.len(),
            marks.as_mut_ptr(),
            marks.len(),
            counts.as_mut_ptr(),
            counts.len(),
        )
    };
    answer(word)
}

/// The answer and the cycles worked; the state is written in place.
pub fn run(program: &Program, state: &mut State, schedule: &[u16], cycles: u16) -> (Answer, u16) {
    run_slices(
        program,
        &mut state.values,
        &mut state.marks,
        &mut state.counts,
        schedule,
        cycles,
    )
}

pub fn run_slices(
    program: &Program,
    values: &mut [u16],
    marks: &mut [u8],
    counts: &mut [u16],
    schedule: &[u16],
    cycles: u16,
) -> (Answer, u16) {
    // Sound: as above, with three lists borrowed for the call alone.
    let word = unsafe {
        player_run(
            program.exprs.as_ptr(),
            program.exprs.len(),
            program.nodes.as_ptr(),
            program.nodes.len(),
            program.widths.as_ptr(),
            program.widths.len(),
            program.vars,
            program.chans,
            values.as_mut_ptr(),
            values.len(),
            marks.as_mut_ptr(),
            marks.len(),
            counts.as_mut_ptr(),
            counts.len(),
            schedule.as_ptr(),
            schedule.len(),
            cycles,
        )
    };
    assert_eq!(
        word >> 48,
        0,
        "the answer has words for number, item and count only"
    );
    (answer(word as u32), (word >> 32) as u16)
}

/// What check, begin and run answer where nothing is to be written. The book is wrong too: what is
/// refused before the first cycle comes before it.
pub fn all_three(program: &Program, state: &State) -> [Answer; 3] {
    let checked = check(program);
    let mut lent = state.clone();
    let begun = begin(program, &state.values, &mut lent.marks, &mut lent.counts);
    assert_eq!(lent, *state, "begin wrote");
    let (ran, worked) = run(program, &mut lent, &[], 5);
    assert_eq!((worked, &lent), (0, state), "run wrote");
    [checked, begun, ran]
}
