//! The worked examples that need no prialt, out of two sources: the report TCD-CS-2001-53, which
//! gives prialt-free Handel-C a denotational semantics, and the thesis "Testing Formal Semantics:
//! Handel-C" (Trinity College Dublin, 2005), about a tool for such semantics.
//!
//! In both a variable may start undefined; here it starts as some number that the example does not
//! state.

use pahmozil_tests::compare;
use pahmozil_tests::expression::Expressions;
use pahmozil_tests::program::{Program, State};
use pahmozil_tests::reference;
use pahmozil_tests::statement::Statement::{Asg, Dly, If, In, Out, Par, Seq, Whl};

/// A start value that no example states.
const ANY: u16 = 40_000;

fn begin(program: &Program, values: &[u16]) -> State {
    reference::begun(program, values).expect("the example begins")
}

/// One cycle with its entries ascending.
fn cycle(program: &Program, state: &State) -> (u16, State) {
    let entries = state.entries();
    let (number, _, after) = compare::run_to(program, state, &entries, 1);
    (number, after)
}

/// The values after every cycle, until no statement is active.
fn worlds(program: &Program, values: &[u16]) -> Vec<Vec<u16>> {
    let mut state = begin(program, values);
    let mut list = Vec::new();
    while !state.marked().is_empty() {
        let (number, after) = cycle(program, &state);
        assert_eq!(number, 0);
        list.push(after.values.clone());
        state = after;
    }
    list
}

// The report, section 5.4.2: event combinator.
// Its rule for request states needs the labels and priorities of prialt, which are left out here.

#[test]
fn report_section_5_4_2_changes_of_different_variables_combine() {
    let mut exprs = Expressions::new();
    let three = exprs.number(3);
    let four = exprs.number(4);
    let program = Program::new(exprs, Par(vec![Asg(0, three), Asg(1, four)]), 2, 0);
    assert_eq!(worlds(&program, &[ANY, ANY]), [[3, 4]]);
}

#[test]
fn report_section_5_4_2_two_changes_of_one_variable_are_an_error() {
    for (p, q) in [(1, 2), (1, 1)] {
        let mut exprs = Expressions::new();
        let left = exprs.number(p);
        let right = exprs.number(q);
        let program = Program::new(exprs, Par(vec![Asg(0, left), Asg(0, right)]), 1, 0);
        let start = begin(&program, &[ANY]);
        assert_eq!(cycle(&program, &start), (9, start));
    }
}

#[test]
fn report_section_5_4_2_two_expressions_on_one_channel_are_an_error() {
    let mut exprs = Expressions::new();
    let one = exprs.number(1);
    let two = exprs.number(2);
    let threads = vec![Out(0, one), Out(0, two), In(0, 0)];
    let program = Program::new(exprs, Par(threads), 1, 1);
    let start = begin(&program, &[ANY]);
    assert_eq!(cycle(&program, &start), (8, start));
}

// The report, section 9.1: x := 1; x := x + y || y := 2; y := y - x

#[test]
fn report_section_9_1_parallel_interference() {
    let mut exprs = Expressions::new();
    let one = exprs.number(1);
    let two = exprs.number(2);
    let x = exprs.variable(0);
    let y = exprs.variable(1);
    let sum = exprs.sum(x, y);
    let difference = exprs.difference(y, x);
    let left = Seq(vec![Asg(0, one), Asg(0, sum)]);
    let right = Seq(vec![Asg(1, two), Asg(1, difference)]);
    let program = Program::new(exprs, Par(vec![left, right]), 2, 0);
    assert_eq!(worlds(&program, &[ANY, ANY]), [[1, 2], [3, 1]]);
}

// The report, section 9.2: x := 5; c!x || c?y; y := y + 1

#[test]
fn report_section_9_2_delayed_communication() {
    let mut exprs = Expressions::new();
    let five = exprs.number(5);
    let one = exprs.number(1);
    let x = exprs.variable(0);
    let y = exprs.variable(1);
    let more = exprs.sum(y, one);
    let left = Seq(vec![Asg(0, five), Out(0, x)]);
    let right = Seq(vec![In(0, 1), Asg(1, more)]);
    let program = Program::new(exprs, Par(vec![left, right]), 2, 1);
    assert_eq!(worlds(&program, &[ANY, ANY]), [[5, ANY], [5, 5], [5, 6]]);
}

// The report, section 9.3: (f := 1 || x := 3); (x > 1) * (f := f * x || x := x - 1)

#[test]
fn report_section_9_3_factorial_3() {
    let program = parallel_factorial(3);
    assert_eq!(worlds(&program, &[ANY, ANY]), [[1, 3], [3, 2], [6, 1]]);
}

/// Variable 0 is f, variable 1 is x.
fn parallel_factorial(of: u16) -> Program {
    let mut exprs = Expressions::new();
    let (one, start, again, product, less) = factorial_expressions(&mut exprs, of);
    let before = Par(vec![Asg(0, one), Asg(1, start)]);
    let body = Par(vec![Asg(0, product), Asg(1, less)]);
    Program::new(exprs, Seq(vec![before, Whl(again, Box::new(body))]), 2, 0)
}

fn sequential_factorial(of: u16) -> Program {
    let mut exprs = Expressions::new();
    let (one, start, again, product, less) = factorial_expressions(&mut exprs, of);
    let body = Seq(vec![Asg(0, product), Asg(1, less)]);
    let root = Seq(vec![Asg(1, start), Asg(0, one), Whl(again, Box::new(body))]);
    Program::new(exprs, root, 2, 0)
}

/// 1, the start value, x > 1, f * x and x - 1.
fn factorial_expressions(exprs: &mut Expressions, of: u16) -> (u16, u16, u16, u16, u16) {
    let one = exprs.number(1);
    let start = exprs.number(of);
    let f = exprs.variable(0);
    let x = exprs.variable(1);
    let again = exprs.below(one, x);
    let product = exprs.product(f, x);
    let less = exprs.difference(x, one);
    (one, start, again, product, less)
}

// The report, section 9.4: nested while.
// The report's compiler mends the first program by itself; the player refuses it.

#[test]
fn report_section_9_4_a_true_loop_around_a_false_one_never_ticks() {
    let mut exprs = Expressions::new();
    let yes = exprs.number(1);
    let no = exprs.number(0);
    let root = Whl(yes, Box::new(Whl(no, Box::new(Asg(0, yes)))));
    let program = Program::new(exprs, root, 1, 0);
    assert_eq!(reference::begun(&program, &[ANY]), Err(10));
}

#[test]
fn report_section_9_4_with_a_delay_beside_it_each_turn_takes_a_cycle() {
    let mut exprs = Expressions::new();
    let yes = exprs.number(1);
    let no = exprs.number(0);
    let body = Par(vec![Whl(no, Box::new(Asg(0, yes))), Dly]);
    let program = Program::new(exprs, Whl(yes, Box::new(body)), 1, 0);
    let start = begin(&program, &[ANY]);
    let mut state = start.clone();
    for _ in 0..100 {
        let (number, after) = cycle(&program, &state);
        assert_eq!(number, 0);
        assert_eq!(after, start);
        state = after;
    }
}

// The thesis, section 2.1.1: CSP-like features.

#[test]
fn thesis_section_2_1_1_par_goes_on_once_all_branches_have_finished() {
    let mut exprs = Expressions::new();
    let one = exprs.number(1);
    let branches = Par(vec![Dly, Seq(vec![Dly, Dly, Dly]), Seq(vec![Dly, Dly])]);
    let program = Program::new(exprs, Seq(vec![branches, Asg(0, one)]), 1, 0);
    assert_eq!(worlds(&program, &[ANY]), [[ANY], [ANY], [ANY], [1]]);
}

#[test]
fn thesis_section_2_1_1_swap_in_a_single_clock_step() {
    let mut exprs = Expressions::new();
    let a = exprs.variable(0);
    let b = exprs.variable(1);
    let program = Program::new(exprs, Par(vec![Asg(0, b), Asg(1, a)]), 2, 0);
    assert_eq!(worlds(&program, &[11, 22]), [[22, 11]]);
}

#[test]
fn thesis_section_2_1_1_one_variable_is_assigned_once_but_read_often() {
    let mut exprs = Expressions::new();
    let a = exprs.variable(0);
    let one = exprs.number(1);
    let reads = Par(vec![Asg(0, one), Asg(1, a), Asg(2, a)]);
    let program = Program::new(exprs, reads, 3, 0);
    assert_eq!(worlds(&program, &[7, ANY, ANY]), [[1, 7, 7]]);
}

#[test]
fn thesis_section_2_1_1_sequential_factorial_takes_ten_steps() {
    let steps = worlds(&sequential_factorial(5), &[ANY, ANY]);
    assert_eq!(steps.len(), 10);
    assert_eq!(steps[9], [120, 1]);
}

#[test]
fn thesis_section_2_1_1_parallel_factorial_takes_five_steps() {
    let steps = worlds(&parallel_factorial(5), &[ANY, ANY]);
    assert_eq!(steps.len(), 5);
    assert_eq!(steps[4], [120, 1]);
}

/// Figure 2.2: branch 2 is ready to output before branch 1 is ready to input, and waits.
#[test]
fn thesis_section_2_1_1_channel_communication_waits_for_both_branches() {
    let mut exprs = Expressions::new();
    let data = exprs.number(9);
    let one = exprs.number(1);
    let branch_1 = Seq(vec![Dly, Dly, In(0, 0)]);
    let branch_2 = Seq(vec![Out(0, data), Asg(1, one)]);
    let program = Program::new(exprs, Par(vec![branch_1, branch_2]), 2, 1);
    let stays = [ANY, ANY];
    assert_eq!(worlds(&program, &stays), [stays, stays, [9, ANY], [9, 1]]);
}

// The thesis, table 2.1: the values of f and x after every step.

#[test]
fn thesis_table_2_1_factorial() {
    let expected = [
        [ANY, 5],
        [1, 5],
        [5, 5],
        [5, 4],
        [20, 4],
        [20, 3],
        [60, 3],
        [60, 2],
        [120, 2],
        [120, 1],
    ];
    assert_eq!(worlds(&sequential_factorial(5), &[ANY, ANY]), expected);
}

#[test]
fn thesis_table_2_1_par_factorial() {
    let expected = [[1, 5], [5, 4], [20, 3], [60, 2], [120, 1]];
    assert_eq!(worlds(&parallel_factorial(5), &[ANY, ANY]), expected);
}

// The thesis, section 3.1: P sets x to -1 if x > 0, beside it Q sets y to 1 if x <= 0, else to 2.
// Numbers have no sign here: -1 is 65,535, and only 0 is not above 0.

#[test]
fn thesis_section_3_1_both_branches_read_the_old_world() {
    let mut exprs = Expressions::new();
    let zero = exprs.number(0);
    let one = exprs.number(1);
    let two = exprs.number(2);
    let x = exprs.variable(0);
    let above = exprs.below(zero, x);
    let not_above = exprs.below(x, one);
    let minus_one = exprs.difference(zero, one);
    let p = If(above, vec![Asg(0, minus_one)]);
    let q = If(not_above, vec![Asg(1, one), Asg(1, two)]);
    for threads in [vec![p.clone(), q.clone()], vec![q, p]] {
        let program = Program::new(exprs.clone(), Par(threads), 2, 0);
        assert_eq!(worlds(&program, &[1, ANY]), [[65535, 2]]);
    }
}

// The thesis, section 6.2.1: while (x > 0) x = x - 1, from x = 2.

#[test]
fn thesis_section_6_2_1_while_from_2_makes_two_steps() {
    let mut exprs = Expressions::new();
    let zero = exprs.number(0);
    let one = exprs.number(1);
    let x = exprs.variable(0);
    let above = exprs.below(zero, x);
    let less = exprs.difference(x, one);
    let program = Program::new(exprs, Whl(above, Box::new(Asg(0, less))), 1, 0);
    assert_eq!(worlds(&program, &[2]), [[1], [0]]);
}

/// The traces t0 to t3 of the section: as many steps as the start value.
#[test]
fn thesis_section_6_2_1_while_makes_as_many_steps_as_x() {
    let mut exprs = Expressions::new();
    let zero = exprs.number(0);
    let one = exprs.number(1);
    let x = exprs.variable(0);
    let above = exprs.below(zero, x);
    let less = exprs.difference(x, one);
    let program = Program::new(exprs, Whl(above, Box::new(Asg(0, less))), 1, 0);
    for start in 0..4 {
        assert_eq!(worlds(&program, &[start]).len(), start as usize);
    }
}
