//! `player_run` against the reference in runs of hundreds of cycles and of as many as can be asked:
//! refusals far into a run, and runs that start from the state that a refusal left.

use pahmozil_tests::compare;
use pahmozil_tests::expression::Expressions;
use pahmozil_tests::generate;
use pahmozil_tests::optimised;
use pahmozil_tests::program::{Program, State};
use pahmozil_tests::random::Random;
use pahmozil_tests::reference;
use pahmozil_tests::statement::Statement::{self, Asg, Dly, If, In, Out, Par, Seq, Whl};
use pahmozil_tests::tally::Tally;
use pahmozil_tests::workloads;

/// The fewest cycles that are worked before a refusal counts as late.
const LATE: u16 = 100;

/// A run that was refused.
struct Refused {
    program: Program,
    number: u16,
    worked: u16,
    /// The right entries of the cycle that was refused.
    entries: Vec<u16>,
    left: State,
}

/// A run that is refused with this number, after some hundred cycles. Of a book with one flaw the
/// flaw may come early or be none, so that there the answer is not always this one.
fn refused(random: &mut Random, number: u16) -> Option<Refused> {
    let worked = random.between(LATE as usize, 500) as u16;
    let (program, start) = generate::late(random, number, worked);
    let right = generate::right_schedule(random, &program, &start, worked as usize + 20);
    let book = match number {
        7 => generate::flawed_schedule(random, &program, &right),
        _ => right.concat(),
    };
    let (got, got_worked, left) = compare::run_to(&program, &start, &book, worked + 20);
    if number != 7 {
        assert_eq!((got, got_worked), (number, worked), "{program:?}");
    } else if got != 7 || got_worked < LATE {
        return None;
    }
    Some(Refused {
        program,
        number,
        worked: got_worked,
        entries: right[got_worked as usize].clone(),
        left,
    })
}

/// Runs that start where a refusal stopped.
fn go_on(random: &mut Random, refused: &Refused, tally: &mut Tally) {
    let Refused {
        program,
        number,
        entries,
        left,
        ..
    } = refused;
    assert_eq!(compare::run(program, left, &[], 0), (0, 0));
    assert_eq!(compare::run(program, left, &[], 5), (7, 0));
    let mut again = entries.clone();
    random.shuffle(&mut again);
    let answer = compare::run(program, left, &again, 1);
    // Entries that are right mend a wrong book; the other refusals do not depend on them.
    let expected = if *number == 7 { (0, 1) } else { (*number, 0) };
    assert_eq!(answer, expected, "{program:?} from {left:?}");
    let book = generate::schedule(random, program, left, 6);
    tally.meet(compare::run(program, left, &book, 6).0);
    // With other values the same marks may be worked, for some cycles at least.
    let values = generate::values(random, &program.widths);
    let other = State {
        values,
        ..left.clone()
    };
    let book = generate::schedule(random, program, &other, 12);
    tally.meet(compare::run(program, &other, &book, 12).0);
}

#[test]
fn refusals_after_hundreds_of_cycles() {
    let random = &mut Random::new(901);
    let tally = &mut Tally::new("run, refused after 100 cycles or more");
    let again = &mut Tally::new("run, from the state that was left");
    let mut cycles = 0;
    for number in [7, 8, 9, 10] {
        let mut met = 0;
        while met < 400 {
            let Some(refused) = refused(random, number) else {
                continue;
            };
            tally.meet(refused.number);
            cycles += refused.worked as usize;
            met += 1;
            go_on(random, &refused, again);
        }
    }
    println!("cycles worked before the refusals: {cycles}");
    tally.demand(&[7, 8, 9, 10], 400);
    again.demand(&[0, 7, 8, 9, 10], 200);
}

/// A refused run is called again and again, each time for what was left of the book, as if it
/// were one run.
#[test]
fn runs_in_parts() {
    let random = &mut Random::new(902);
    let tally = &mut Tally::new("run, in parts");
    while tally.total() < 400 {
        let number = random.pick(&[0, 8, 9, 10]);
        let worked = random.between(LATE as usize, 300) as u16;
        let (program, start) = generate::late(random, number, worked);
        let right = generate::right_schedule(random, &program, &start, worked as usize + 10);
        let whole = compare::run_to(&program, &start, &right.concat(), worked + 10);
        let mut state = start;
        let (mut done, mut last) = (0, 0);
        while last == 0 && done < right.len() {
            let part = random.between(1, 60).min(right.len() - done);
            // Some parts end in a refusal for want of entries, and the next goes on from there.
            let missing = random.below(2);
            let book = right[done..done + part].concat();
            let book = &book[..book.len() - missing];
            let (got, got_worked, left) = compare::run_to(&program, &state, book, part as u16);
            assert_eq!((got == 7), missing == 1 && got_worked as usize == part - 1);
            done += got_worked as usize;
            last = if got == 7 { 0 } else { got };
            state = left;
        }
        assert_eq!((last, done as u16, state), whole, "{program:?}");
        tally.meet(last);
    }
    tally.demand(&[0, 8, 9, 10], 50);
}

/// The longest run of a program that changes a value in each cycle, with its entries ascending.
fn hold_longest(name: &str, program: &Program, start: &State) {
    let book = optimised::ascending_schedule(program, start, 65_535);
    let answer = compare::run(program, start, &book, 65_535);
    assert_eq!(answer, (0, 65_535), "{name}");
}

fn begun(exprs: Expressions, threads: Vec<Statement>, widths: [u16; 4]) -> (Program, State) {
    let program = Program::new(exprs, Par(threads), 4, 1).with_widths(&widths);
    let start = reference::begun(&program, &[0; 4]).expect("no loop is met at once");
    (program, start)
}

/// A counter, and a formula over it that is read at the start and then not before the last cycles: a
/// value that was kept from the start would be an old one.
fn seldom_read(late: u16) -> (Program, State) {
    let mut exprs = Expressions::new();
    let one = exprs.number(1);
    let v0 = exprs.variable(0);
    let more = exprs.sum(v0, one);
    let product = exprs.product(more, more);
    let formula = exprs.sum(product, v0);
    let three = exprs.number(3);
    let early = exprs.below(v0, three);
    let late = exprs.number(late);
    let is_late = exprs.below(late, v0);
    let reads = If(is_late, vec![Asg(1, formula), Dly]);
    let reads = If(early, vec![Asg(1, formula), reads]);
    let endless = |body| Whl(one, Box::new(body));
    let threads = vec![endless(Asg(0, more)), endless(reads)];
    begun(exprs, threads, [16; 4])
}

/// A counter, and a test of it that is worked as a right side in one of the first cycles, and then as
/// a condition in one of the last: whether v0 is below some number.
fn read_at_both_ends(before: u16, end: u16) -> (Program, State) {
    let mut exprs = Expressions::new();
    let one = exprs.number(1);
    let v0 = exprs.variable(0);
    let more = exprs.sum(v0, one);
    let ten = exprs.number(10);
    let first = exprs.below(v0, ten);
    let end = exprs.number(end);
    let goes_on = exprs.below(v0, end);
    let mut steps = vec![Dly; before as usize];
    steps.push(Asg(1, first));
    steps.push(Whl(goes_on, Box::new(Dly)));
    steps.push(If(first, vec![Asg(2, one), Asg(3, one)]));
    let counter = Whl(one, Box::new(Asg(0, more)));
    begun(exprs, vec![counter, Seq(steps)], [16; 4])
}

/// A communication in every cycle that changes what is sent, beside a formula and a choice over it.
fn sent_on(widths: [u16; 4]) -> (Program, State) {
    let mut exprs = Expressions::new();
    let one = exprs.number(1);
    let v0 = exprs.variable(0);
    let more = exprs.sum(v0, one);
    let odd = exprs.both_bits(v0, one);
    let product = exprs.product(more, v0);
    let endless = |body| Whl(one, Box::new(body));
    let threads = vec![
        endless(Out(0, more)),
        endless(In(0, 0)),
        endless(Asg(1, product)),
        endless(If(odd, vec![Asg(2, v0), Asg(3, product)])),
    ];
    begun(exprs, threads, widths)
}

#[test]
fn longest_runs_with_a_change_in_each_cycle() {
    for late in [65_520, 65_531, 65_532, 65_533] {
        let (program, start) = seldom_read(late);
        hold_longest("seldom read", &program, &start);
    }
    for before in 0..4 {
        for end in 65_530..=65_535 {
            let (program, start) = read_at_both_ends(before, end);
            hold_longest("read at both ends", &program, &start);
        }
    }
    for widths in [[16; 4], [12; 4], [1, 15, 2, 8]] {
        let (program, start) = sent_on(widths);
        hold_longest("sent on", &program, &start);
    }
    let shapes = [
        workloads::sequences("sequences", 100),
        workloads::nesting(),
        workloads::choices(),
        workloads::needed(),
        workloads::exam_paper(),
    ];
    for shape in shapes {
        hold_longest(shape.name, &shape.program, &shape.start);
    }
}

/// Programs of which each cycle changes a value; a run of as many cycles as can be asked.
#[test]
fn longest_runs_of_random_programs() {
    let random = &mut Random::new(903);
    for case in 0..12 {
        let (program, start) = generate::late(random, 0, 0);
        hold_longest(&format!("case {case}"), &program, &start);
    }
}

/// Refused in the last cycle that can be asked for, or shortly before.
#[test]
fn refusals_at_the_end_of_the_longest_runs() {
    let random = &mut Random::new(904);
    for number in [8, 9, 10] {
        for worked in [65_534, 65_533, 65_500, 32_768] {
            let (program, start) = generate::late(random, number, worked);
            let book = optimised::ascending_schedule(&program, &start, 65_535);
            let (got, got_worked, left) = compare::run_to(&program, &start, &book, 65_535);
            assert_eq!((got, got_worked), (number, worked), "{program:?}");
            let entries = left.entries();
            assert_eq!(compare::run(&program, &left, &entries, 1), (number, 0));
        }
    }
}
