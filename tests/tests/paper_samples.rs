//! The files that were worked by hand, over the C interface and by the reference.

use pahmozil_tests::answer::Answer;
use pahmozil_tests::compare;
use pahmozil_tests::file::{Buffers, Sizes};
use pahmozil_tests::paper;
use pahmozil_tests::papers::{self, PaperFile};
use pahmozil_tests::player;
use pahmozil_tests::program::State;
use pahmozil_tests::reference;

/// A word and a byte that stand in what is lent, and in no sample.
const OLD: u16 = 0xa5a5;
const OLD_BYTE: u8 = 0xa5;

fn parts(answer: Answer) -> (u16, u16) {
    (answer.number, answer.item)
}

/// The buffers after a sample was read into ones that had so many words to spare.
fn with_spare(sample: &PaperFile, spare: usize) -> Buffers {
    let old = vec![OLD; spare];
    Buffers {
        exprs: [&sample.program.exprs[..], &old].concat(),
        nodes: [&sample.program.nodes[..], &old].concat(),
        values: [&sample.values[..], &old].concat(),
        widths: [&sample.program.widths[..], &old].concat(),
    }
}

/// Buffers with so many words to spare.
fn lent(sizes: Sizes, spare: usize) -> Buffers {
    let mut buffers = Buffers::filled(sizes, OLD);
    for list in buffers.lists() {
        list.resize(list.len() + spare, OLD);
    }
    buffers
}

#[test]
fn sizes_of_the_samples() {
    let counts = |[nodes, exprs, vars, chans]: [u16; 4]| Sizes {
        nodes,
        exprs,
        vars,
        chans,
    };
    let expected = [[1, 0, 0, 0], [2, 3, 1, 0], [4, 3, 2, 1]].map(counts);
    let samples = papers::files();
    assert_eq!(samples.len(), expected.len());
    for (sample, sizes) in samples.iter().zip(expected) {
        assert_eq!(paper::sizes(sample.bytes), sizes, "{}", sample.name);
        assert_eq!(reference::sizes(sample.bytes), sizes, "{}", sample.name);
        assert_eq!(Sizes::of(&sample.program), sizes, "{}", sample.name);
    }
}

#[test]
fn samples_read() {
    for sample in papers::files() {
        for spare in [0, 1, 7] {
            let mut buffers = lent(Sizes::of(&sample.program), spare);
            let expected = (Answer::without_item(0), with_spare(&sample, spare));
            let by_reference = reference::read(sample.bytes, &buffers);
            assert_eq!(by_reference, expected, "{}", sample.name);
            let answer = paper::read(sample.bytes, &mut buffers);
            assert_eq!((answer, buffers), expected, "{}", sample.name);
        }
    }
}

#[test]
fn samples_written() {
    for sample in papers::files() {
        for spare in [0, 1, 2, 9] {
            let mut file = vec![OLD_BYTE; sample.bytes.len() + spare];
            let after = [sample.bytes, &vec![OLD_BYTE; spare]].concat();
            let expected = (Answer::without_item(0), after);
            let by_reference = reference::write(&sample.program, &sample.values, &file);
            assert_eq!(by_reference, expected, "{}", sample.name);
            let answer = paper::write(&sample.program, &sample.values, &mut file);
            assert_eq!((answer, file), expected, "{}", sample.name);
        }
    }
}

/// Reads into buffers with a word to spare; nothing is written.
fn refused(file: &[u8]) -> (u16, u16) {
    refused_into(file, lent(Sizes::of(&papers::input_file().program), 1))
}

/// Reads into these buffers; nothing is written.
fn refused_into(file: &[u8], before: Buffers) -> (u16, u16) {
    let mut buffers = before.clone();
    let answer = paper::read(file, &mut buffers);
    assert_eq!(buffers, before);
    assert_eq!(reference::read(file, &before), (answer, before));
    parts(answer)
}

/// The file of the counter with another byte in this place.
fn counter_with(at: usize, byte: u8) -> Vec<u8> {
    let mut file = papers::counter_file().bytes.to_vec();
    file[at] = byte;
    file
}

#[test]
fn a_byte_less() {
    let file = papers::counter_file().bytes;
    assert_eq!(refused(&file[..57]), (12, 0));
    assert_eq!(refused(&file[1..]), (12, 0));
    assert_eq!(paper::sizes(&file[..57]), Sizes::default());
    assert_eq!(paper::sizes(&file[1..]), Sizes::default());
}

#[test]
fn no_bytes_or_too_few() {
    for length in [0, 1, 2, 14, 15] {
        assert_eq!(refused(&vec![0; length]), (12, 0));
    }
    // A right trailer alone: a program without a node.
    assert_eq!(refused(&[0; 16]), (1, 0));
}

/// The words of the trailer start at byte 42, and the distances at byte 50.
#[test]
fn a_distance_one_greater() {
    for (at, byte) in [(50, 22), (52, 13), (54, 3), (56, 2)] {
        let file = counter_with(at, byte);
        assert_eq!(refused(&file), (12, 0), "byte {at}");
        assert_eq!(paper::sizes(&file), Sizes::default());
    }
}

/// Expressions 1 and 2 have the ops 8 and 9.
#[test]
fn two_unknown_ops() {
    let mut file = counter_with(6, 8);
    file[12] = 9;
    assert_eq!(refused(&file), (2, 1));
    // What check refuses is counted all the same.
    let sizes = Sizes::of(&papers::counter_file().program);
    assert_eq!(paper::sizes(&file), sizes);
}

#[test]
fn the_other_questions_of_check() {
    // Node 1 has the kind 9; then it stores to v1, which is not there; then v0 has 17 bits.
    assert_eq!(refused(&counter_with(28, 9)), (3, 1));
    assert_eq!(refused(&counter_with(34, 1)), (4, 1));
    assert_eq!(refused(&counter_with(40, 17)), (11, 0));
    // 257 channels.
    let mut file = counter_with(48, 1);
    file[49] = 1;
    assert_eq!(refused(&file), (1, 0));
}

/// Of the input's two widths the second is 0.
#[test]
fn the_variable_of_a_bad_width() {
    let mut file = papers::input_file().bytes.to_vec();
    file[64] = 0;
    assert_eq!(refused(&file), (11, 1));
}

#[test]
fn each_buffer_a_word_short() {
    let sample = papers::input_file();
    for which in 0..4 {
        let mut before = lent(Sizes::of(&sample.program), 0);
        before.lists()[which].pop();
        let mut buffers = before.clone();
        let answer = paper::read(sample.bytes, &mut buffers);
        assert_eq!((parts(answer), buffers), ((13, 0), before), "{which}");
    }
}

/// A buffer that is too short is asked about last.
#[test]
fn what_comes_before_13() {
    let empty = Buffers::filled(Sizes::default(), 0);
    let ask = |file: &[u8]| parts(paper::read(file, &mut empty.clone()));
    assert_eq!(ask(papers::counter_file().bytes), (13, 0));
    assert_eq!(ask(&counter_with(40, 17)), (11, 0));
    assert_eq!(ask(&counter_with(12, 8)), (2, 2));
    assert_eq!(ask(&counter_with(56, 2)), (12, 0));
}

/// The refusals of read in the list of samples that is proved, all of the input's file.
#[test]
fn proved_refusals_of_read() {
    let file = papers::input_file().bytes;
    let in_front = [&[0, 0], file].concat();
    let mut other_distance = file.to_vec();
    other_distance[78] = 5;
    let mut faulty = file.to_vec();
    faulty[6] = 9;
    faulty[12] = 9;
    let sizes = Sizes::of(&papers::input_file().program);
    let refused = |file: &[u8]| refused_into(file, lent(sizes, 0));
    assert_eq!(refused(&[file, &[0]].concat()), (12, 0));
    assert_eq!(refused(&other_distance), (12, 0));
    assert_eq!(refused(&in_front), (12, 0));
    assert_eq!(paper::sizes(&in_front), Sizes::default());
    // The list of expressions is lent a word too short besides; then every list is long enough.
    let mut short = lent(sizes, 0);
    short.exprs.pop();
    assert_eq!(refused_into(&faulty, short), (2, 1));
    assert_eq!(refused(&faulty), (2, 1));
    assert_eq!(paper::sizes(&faulty), sizes);
}

/// Those of write, of the same paper and of a program that is refused.
#[test]
fn proved_refusals_of_write() {
    let mut sample = papers::input_file();
    assert_eq!(write_refused(&sample, &[300, 5], 81), (13, 0));
    assert_eq!(write_refused(&sample, &[300, 5, 0], 81), (5, 0));
    sample.program = papers::refused_program();
    assert_eq!(write_refused(&sample, &[300, 5, 0], 81), (2, 1));
}

/// Writes the sample with these values into so many bytes; nothing is written.
fn write_refused(sample: &PaperFile, values: &[u16], length: usize) -> (u16, u16) {
    let before = vec![OLD_BYTE; length];
    let mut file = before.clone();
    let answer = paper::write(&sample.program, values, &mut file);
    assert_eq!(file, before);
    assert_eq!(
        compare::write(&sample.program, values, &before),
        answer.number
    );
    parts(answer)
}

#[test]
fn a_value_too_many_or_too_few() {
    let sample = papers::counter_file();
    assert_eq!(write_refused(&sample, &[4094, 0], 60), (5, 0));
    assert_eq!(write_refused(&sample, &[], 60), (5, 0));
    // Asked before the length of the file is.
    assert_eq!(write_refused(&sample, &[], 0), (5, 0));
}

#[test]
fn a_file_a_byte_short() {
    let sample = papers::counter_file();
    for length in [0, 16, 42, 56, 57] {
        assert_eq!(write_refused(&sample, &[4094], length), (13, 0));
    }
}

#[test]
fn a_refused_program_is_not_written() {
    let mut sample = papers::counter_file();
    sample.program.widths[0] = 17;
    assert_eq!(write_refused(&sample, &[4094, 0], 0), (11, 0));
    sample.program.widths = vec![12, 12];
    assert_eq!(write_refused(&sample, &[4094, 0], 58), (11, 0));
    sample.program.nodes[8] = 1;
    assert_eq!(write_refused(&sample, &[4094], 58), (4, 1));
    sample.program.exprs[6] = 8;
    assert_eq!(write_refused(&sample, &[4094], 58), (2, 2));
    sample.program.exprs.pop();
    assert_eq!(write_refused(&sample, &[4094], 58), (1, 0));
}

/// 65,535 in 12 bits: begin would refuse it, but a file may have it.
#[test]
fn a_value_too_wide() {
    let sample = papers::counter_file();
    let expected = {
        let mut file = counter_with(38, 0xff);
        file[39] = 0xff;
        file
    };
    let mut file = vec![OLD_BYTE; 58];
    let answer = paper::write(&sample.program, &[65535], &mut file);
    assert_eq!((parts(answer), &file), ((0, 0), &expected));
    let mut buffers = lent(Sizes::of(&sample.program), 0);
    let answer = paper::read(&file, &mut buffers);
    assert_eq!((parts(answer), buffers.values), ((0, 0), vec![65535]));
}

/// The paper of the counter as it comes out of its file, begun and run: both libraries in one program.
#[test]
fn read_and_played() {
    let sizes = paper::sizes(papers::counter_file().bytes);
    let mut buffers = lent(sizes, 0);
    let answer = paper::read(papers::counter_file().bytes, &mut buffers);
    assert_eq!(parts(answer), (0, 0));
    let (program, values) = buffers.paper(sizes);
    let mut state = State {
        values,
        marks: vec![0; 2],
        counts: vec![0; 2],
    };
    let begun = player::begin(&program, &state.values, &mut state.marks, &mut state.counts);
    assert_eq!(parts(begun), (0, 0));
    let (ran, worked) = player::run(&program, &mut state, &[1, 1, 1], 3);
    assert_eq!((parts(ran), worked, state.values), ((0, 0), 3, vec![1]));
}
