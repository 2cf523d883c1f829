//! One case, asked of the library and of the reference, which must agree in all that the call
//! answers and writes. Each function gives the number met; `run` also gives the cycles worked, and
//! `run_to` the state that is left besides; `sizes` gives the counts.

use crate::answer::Answer;
use crate::file::{Buffers, Sizes};
use crate::paper;
use crate::player;
use crate::program::Program;
use crate::program::State;
use crate::reference;

pub fn check(program: &Program) -> u16 {
    let expected = reference::check(program);
    assert_eq!(player::check(program), expected, "check of {program:?}");
    expected.number
}

/// Elements before and after each list that is written, to be found unchanged.
const AROUND: usize = 8;

struct Lent<T> {
    words: Vec<T>,
    around: T,
    edge: usize,
}

impl<T: Copy + PartialEq> Lent<T> {
    fn new(list: &[T], around: T) -> Lent<T> {
        Lent::at(AROUND, list, around)
    }

    fn at(edge: usize, list: &[T], around: T) -> Lent<T> {
        let outside = vec![around; edge];
        Lent {
            words: [&outside, list, &outside].concat(),
            around,
            edge,
        }
    }

    fn list(&mut self) -> &mut [T] {
        let end = self.words.len() - self.edge;
        &mut self.words[self.edge..end]
    }

    fn given_back(mut self) -> Vec<T> {
        let list = self.list().to_vec();
        let end = self.words.len() - self.edge;
        let mut edges = self.words[..self.edge].iter().chain(&self.words[end..]);
        assert!(
            edges.all(|&word| word == self.around),
            "the call wrote outside of a list"
        );
        list
    }
}

pub fn begin(program: &Program, values: &[u16], marks: &[u8], counts: &[u16]) -> u16 {
    let (answer, marks_after, counts_after) = reference::begin(program, values, marks, counts);
    let mut lent_marks = Lent::new(marks, 0xa5);
    let mut lent_counts = Lent::new(counts, 0xa5a5);
    let got = player::begin(program, values, lent_marks.list(), lent_counts.list());
    let case = || format!("begin of {program:?} with {values:?}, {marks:?}, {counts:?}");
    assert_eq!(got, answer, "answer, {}", case());
    assert_eq!(lent_marks.given_back(), marks_after, "marks, {}", case());
    assert_eq!(lent_counts.given_back(), counts_after, "counts, {}", case());
    answer.number
}

pub fn run(program: &Program, state: &State, schedule: &[u16], cycles: u16) -> (u16, u16) {
    let (number, worked, _) = run_to(program, state, schedule, cycles);
    (number, worked)
}

pub fn run_to(
    program: &Program,
    state: &State,
    schedule: &[u16],
    cycles: u16,
) -> (u16, u16, State) {
    let (answer, worked, after) = reference::run(program, state, schedule, cycles);
    let mut values = Lent::new(&state.values, 0xa5a5);
    let mut marks = Lent::new(&state.marks, 0xa5);
    let mut counts = Lent::new(&state.counts, 0xa5a5);
    let (got, got_worked) = player::run_slices(
        program,
        values.list(),
        marks.list(),
        counts.list(),
        schedule,
        cycles,
    );
    let case = || format!("run of {program:?} from {state:?} with {schedule:?}, {cycles} cycles");
    assert_eq!(got, answer, "answer, {}", case());
    assert_eq!(got_worked, worked, "worked, {}", case());
    assert_eq!(values.given_back(), after.values, "values, {}", case());
    assert_eq!(marks.given_back(), after.marks, "marks, {}", case());
    assert_eq!(counts.given_back(), after.counts, "counts, {}", case());
    (answer.number, worked, after)
}

/// A file may stand at any address: at an even one, then at an odd one.
const EDGES_OF_FILES: [usize; 2] = [AROUND, AROUND + 1];

pub fn sizes(file: &[u8]) -> Sizes {
    let expected = reference::sizes(file);
    for edge in EDGES_OF_FILES {
        let mut lent = Lent::at(edge, file, 0xa5);
        assert_eq!(paper::sizes(lent.list()), expected, "sizes of {file:?}");
    }
    expected
}

pub fn read(file: &[u8], buffers: &Buffers) -> u16 {
    let (answer, after) = reference::read(file, buffers);
    for edge in EDGES_OF_FILES {
        let mut lent = Lent::at(edge, file, 0xa5);
        let (got, got_after) = read_once(lent.list(), buffers);
        let case = || format!("read of {file:?} into {buffers:?}");
        assert_eq!(got, answer, "answer, {}", case());
        assert_eq!(got_after, after, "buffers, {}", case());
    }
    answer.number
}

fn read_once(file: &[u8], buffers: &Buffers) -> (Answer, Buffers) {
    let lend = |list: &Vec<u16>| Lent::new(list, 0xa5a5);
    let mut exprs = lend(&buffers.exprs);
    let mut nodes = lend(&buffers.nodes);
    let mut values = lend(&buffers.values);
    let mut widths = lend(&buffers.widths);
    let answer = paper::read_slices(
        file,
        exprs.list(),
        nodes.list(),
        values.list(),
        widths.list(),
    );
    let after = Buffers {
        exprs: exprs.given_back(),
        nodes: nodes.given_back(),
        values: values.given_back(),
        widths: widths.given_back(),
    };
    (answer, after)
}

pub fn write(program: &Program, values: &[u16], file: &[u8]) -> u16 {
    let (answer, after) = reference::write(program, values, file);
    for edge in EDGES_OF_FILES {
        let mut lent = Lent::at(edge, file, 0xa5);
        let got = paper::write(program, values, lent.list());
        let case = || format!("write of {program:?} with {values:?} into {file:?}");
        assert_eq!(got, answer, "answer, {}", case());
        assert_eq!(lent.given_back(), after, "file, {}", case());
    }
    answer.number
}
