//! The reference against the sample papers.

use pahmozil_tests::answer::Answer;
use pahmozil_tests::papers::{self, Limit, Paper, Refusal};
use pahmozil_tests::reference;

fn hold(paper: Paper) {
    let program = &paper.program;
    let n = program.node_count();
    // Begin must not read these.
    let (old_marks, old_counts) = (vec![1; n], vec![77; n]);
    let (answer, marks, counts) = reference::begin(program, &paper.values, &old_marks, &old_counts);
    let expected = Answer::without_item(paper.begin);
    assert_eq!(answer, expected, "{}: begin", paper.name);
    if paper.begin != 0 {
        assert_eq!(
            (marks, counts),
            (old_marks, old_counts),
            "{}: begin writes",
            paper.name
        );
        return;
    }
    assert_eq!(
        marks, paper.start.marks,
        "{}: marks after begin",
        paper.name
    );
    assert_eq!(
        counts, paper.start.counts,
        "{}: counts after begin",
        paper.name
    );
    for run in &paper.runs {
        let (answer, worked, after) =
            reference::run(program, &paper.start, &run.schedule, run.cycles);
        let expected = Answer::without_item(run.number);
        assert_eq!(answer, expected, "{}: answer", paper.name);
        assert_eq!(worked, run.worked, "{}: worked", paper.name);
        assert_eq!(after, run.after, "{}: state", paper.name);
    }
}

fn hold_refusal(refusal: Refusal) {
    let Refusal {
        name,
        program,
        state,
        ..
    } = &refusal;
    let begun = reference::begin(program, &state.values, &state.marks, &state.counts);
    let (ran, worked, after) = reference::run(program, state, &[], 5);
    let answers = [reference::check(program), begun.0, ran];
    assert_eq!(answers, refusal.answers(), "{name}");
    assert_eq!(
        (&begun.1, &begun.2),
        (&state.marks, &state.counts),
        "{name}"
    );
    assert_eq!((worked, &after), (0, state), "{name}");
}

fn hold_limit(limit: Limit) {
    assert_eq!(
        reference::check(&limit.program),
        limit.answer,
        "{}",
        limit.name
    );
}

#[test]
fn one_dly() {
    hold(papers::one_dly());
}

#[test]
fn swap() {
    hold(papers::swap());
}

#[test]
fn swap_wrong_book() {
    hold(papers::swap_wrong_book());
}

#[test]
fn equal_values_conflict() {
    hold(papers::equal_values_conflict());
}

#[test]
fn delayed_out() {
    hold(papers::delayed_out());
}

#[test]
fn two_in_on_one_channel() {
    hold(papers::two_in_on_one_channel());
}

#[test]
fn loop_around_false_loop() {
    hold(papers::loop_around_false_loop());
}

#[test]
fn par_of_false_loops() {
    hold(papers::par_of_false_loops());
}

#[test]
fn loop_around_par() {
    hold(papers::loop_around_par());
}

#[test]
fn countdown() {
    hold(papers::countdown());
}

#[test]
fn loop_becomes_zero_time() {
    hold(papers::loop_becomes_zero_time());
}

#[test]
fn wrapping() {
    hold(papers::wrapping());
}

#[test]
fn zero_cycles() {
    hold(papers::zero_cycles());
}

#[test]
fn waiting_in_is_no_store() {
    hold(papers::waiting_in_is_no_store());
}

#[test]
fn unequal_values_conflict() {
    hold(papers::unequal_values_conflict());
}

#[test]
fn stored_condition() {
    hold(papers::stored_condition());
}

#[test]
fn uneven_threads() {
    hold(papers::uneven_threads());
}

#[test]
fn twelve_bit_counter() {
    hold(papers::twelve_bit_counter());
}

#[test]
fn one_bit_input() {
    hold(papers::one_bit_input());
}

#[test]
fn one_bit_loop() {
    hold(papers::one_bit_loop());
}

#[test]
fn seven_into_one_bit() {
    hold(papers::seven_into_one_bit());
}

#[test]
fn six_into_one_bit() {
    hold(papers::six_into_one_bit());
}

#[test]
fn begin_too_wide() {
    hold(papers::begin_too_wide());
}

#[test]
fn begin_over_rubbish() {
    hold(papers::begin_over_rubbish());
}

#[test]
fn wide_formula_of_narrow_variable() {
    hold(papers::wide_formula_of_narrow_variable());
}

#[test]
fn condition_beyond_the_width() {
    hold(papers::condition_beyond_the_width());
}

#[test]
fn two_stores_to_one_bit() {
    hold(papers::two_stores_to_one_bit());
}

#[test]
fn skipped() {
    hold(papers::skipped());
}

#[test]
fn chain() {
    hold(papers::chain());
}

#[test]
fn thread_loop() {
    hold(papers::thread_loop());
}

#[test]
fn wrong_widths() {
    papers::wrong_widths().into_iter().for_each(hold_refusal);
}

#[test]
fn wrong_counters() {
    papers::wrong_counters().into_iter().for_each(hold_refusal);
}

#[test]
fn values_too_wide() {
    papers::values_too_wide().into_iter().for_each(hold_refusal);
}

#[test]
fn eleven_comes_after_4() {
    hold_refusal(papers::eleven_comes_after_4());
}

#[test]
fn eleven_comes_before_5() {
    hold_refusal(papers::eleven_comes_before_5());
}

#[test]
fn five_comes_before_6() {
    hold_refusal(papers::five_comes_before_6());
}

#[test]
fn six_comes_before_10() {
    hold_refusal(papers::six_comes_before_10());
}

#[test]
fn first_faults() {
    papers::first_faults().into_iter().for_each(hold_refusal);
}

#[test]
fn n_1024_passes() {
    hold_limit(papers::n_1024());
}

#[test]
fn n_1025_gives_1() {
    hold_limit(papers::n_1025());
}

#[test]
fn depth_32_passes() {
    hold_limit(papers::depth_32());
}

#[test]
fn depth_33_gives_3() {
    hold_limit(papers::depth_33());
}
