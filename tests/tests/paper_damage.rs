//! `paper_sizes`, `paper_read` and `paper_write` against the reference, on files that are damaged in
//! every way of a kind, on trailers with great counts, and on buffers of every length.

use pahmozil_tests::compare;
use pahmozil_tests::expression::Expressions;
use pahmozil_tests::file::{Buffers, Sizes};
use pahmozil_tests::generate::{self, bytes_of, words_of};
use pahmozil_tests::papers;
use pahmozil_tests::program::{Program, MOST_CHANS, MOST_EXPRS, MOST_NODES, MOST_VARS};
use pahmozil_tests::random::Random;
use pahmozil_tests::reference;
use pahmozil_tests::statement::Statement::{Dly, Seq};
use pahmozil_tests::tally::Tally;

/// More than any of the small files needs.
const ROOM: Sizes = Sizes {
    nodes: 20,
    exprs: 20,
    vars: 20,
    chans: 0,
};

/// Sizes and reading; gives the number of the latter.
fn ask(file: &[u8]) -> u16 {
    let sizes = compare::sizes(file);
    let number = compare::read(file, &Buffers::filled(ROOM, 0xa5a5));
    if number == 12 {
        assert_eq!(sizes, Sizes::default());
    }
    number
}

/// The files worked by hand.
fn samples() -> Vec<Vec<u8>> {
    let files = papers::files();
    files.iter().map(|sample| sample.bytes.to_vec()).collect()
}

fn some_files(random: &mut Random, count: usize) -> Vec<Vec<u8>> {
    let mut file = || {
        let shape = generate::small_shape(random);
        let program = generate::program(random, &shape);
        let (program, values) = generate::laid_out(random, program);
        reference::bytes(&program, &values)
    };
    (0..count).map(|_| file()).collect()
}

/// From either end.
#[test]
fn cut_at_every_length() {
    for file in samples() {
        for length in 0..file.len() {
            let cut = file.len() - length;
            assert_eq!((ask(&file[..length]), ask(&file[cut..])), (12, 12));
        }
    }
    let random = &mut Random::new(1201);
    let tally = &mut Tally::new("cut at every length");
    for file in some_files(random, 300) {
        for length in 0..=file.len() {
            tally.meet(ask(&file[..length]));
            tally.meet(ask(&file[file.len() - length..]));
        }
    }
    tally.print();
    assert_eq!(tally.times(0), 600);
    assert!(tally.times(12) >= 20_000);
}

#[test]
fn every_byte_changed() {
    let tally = &mut Tally::new("every byte changed to every other");
    for file in samples() {
        for at in 0..file.len() {
            for byte in 0..=255 {
                let mut other = file.clone();
                other[at] = byte;
                tally.meet(ask(&other));
            }
        }
    }
    tally.demand(&[0, 1, 2, 3, 4, 11, 12], 200);
}

#[test]
fn every_word_of_the_trailer() {
    let file = papers::input_file().bytes;
    let tally = &mut Tally::new("every word of a trailer changed to every other");
    for back in 1..=8 {
        let mut words = words_of(file);
        let at = words.len() - back;
        for word in 0..=65535 {
            words[at] = word;
            tally.meet(ask(&bytes_of(&words)));
        }
    }
    tally.print();
    // The count of channels alone may be another, from 1 to 256: the program names channel 0. Each
    // of the other seven words is right once.
    let times = [0, 1, 4, 12].map(|number| tally.times(number));
    assert_eq!(times, [256 + 7, 65_535 - 256, 1, 7 * 65_535]);
}

#[test]
fn bytes_in_front_and_behind() {
    for file in samples() {
        for length in 1..=40 {
            for byte in [0, 1, 255] {
                let more = vec![byte; length];
                assert_eq!(ask(&[&more, &file[..]].concat()), 12);
                assert_eq!(ask(&[&file[..], &more].concat()), 12);
            }
        }
        assert_eq!(ask(&[&file[..], &file[..]].concat()), 12);
    }
}

/// Counts, then the distances that they require; those that are no word are cut to one.
fn trailer([nodes, exprs, vars, chans]: [u16; 4]) -> Vec<u16> {
    let [n, e, v] = [nodes, exprs, vars].map(usize::from);
    let required = [3 * e + 5 * n + 2 * v, 5 * n + 2 * v, 2 * v, v];
    let mut words = vec![nodes, exprs, vars, chans];
    words.extend(required.map(|distance| distance as u16));
    words
}

/// A file with these counts, with so many words in front of its trailer.
fn with_front(counts: [u16; 4], front: usize) -> Vec<u8> {
    bytes_of(&[vec![0; front], trailer(counts)].concat())
}

/// Around the limits of check, and around those counts whose words are 65,536.
const COUNTS: [u16; 17] = [
    0, 1, 2, 255, 256, 257, 1024, 1025, 13107, 13108, 21845, 21846, 32767, 32768, 43691, 65534,
    65535,
];

/// With few words in front, and with as many as the first distance says.
#[test]
fn counts_up_to_65535() {
    let tally = &mut Tally::new("great counts");
    for nodes in COUNTS {
        for exprs in COUNTS {
            for vars in COUNTS {
                let counts = [nodes, exprs, vars, nodes ^ exprs];
                let told = trailer(counts)[4] as usize;
                tally.meet(ask(&with_front(counts, 0)));
                tally.meet(ask(&with_front(counts, told)));
            }
        }
    }
    tally.print();
    assert_eq!(tally.total(), 2 * COUNTS.len().pow(3));
    assert!(tally.times(1) >= 100 && tally.times(12) >= 5_000);
}

/// N, E, V, and whether all distances are words. The file is as long as the counts require.
const GREAT: [([u16; 3], bool); 13] = [
    ([0, 21845, 0], true),
    ([0, 21846, 0], false),
    ([13107, 0, 0], true),
    ([13108, 0, 0], false),
    ([0, 0, 32767], true),
    ([0, 0, 32768], false),
    ([0, 0, 65535], false),
    ([1, 2, 32762], true),
    ([1, 2, 32763], false),
    ([2, 21843, 0], false),
    ([8192, 8192, 0], false),
    ([8191, 8191, 3], true),
    ([65535, 65535, 65535], false),
];

#[test]
fn a_distance_that_is_no_word() {
    for ([nodes, exprs, vars], right) in GREAT {
        let [n, e, v] = [nodes, exprs, vars].map(usize::from);
        let file = with_front([nodes, exprs, vars, 7], 3 * e + 5 * n + 2 * v);
        let number = if right { 1 } else { 12 };
        assert_eq!(ask(&file), number, "{nodes}, {exprs}, {vars}");
        let counted = Sizes {
            nodes,
            exprs,
            vars,
            chans: 7,
        };
        let expected = if right { counted } else { Sizes::default() };
        assert_eq!(compare::sizes(&file), expected);
    }
}

#[test]
fn every_number_of_channels() {
    let file = papers::delay_file().bytes;
    let mut words = words_of(file);
    let at = words.len() - 5;
    for chans in 0..=65535 {
        words[at] = chans;
        let number = if chans <= MOST_CHANS { 0 } else { 1 };
        assert_eq!(ask(&bytes_of(&words)), number, "{chans} channels");
    }
}

/// Accepted if none of these is above its limit.
fn with_counts(nodes: usize, exprs: usize, vars: u16, chans: u16) -> Program {
    let mut list = Expressions::new();
    (0..exprs).for_each(|e| _ = list.number(e as u16));
    Program::new(list, Seq(vec![Dly; nodes - 1]), vars, chans)
}

/// Read and written, into what it needs and into a word or byte less, with these numbers.
fn hold_limit(program: &Program, numbers: [u16; 2]) {
    let values: Vec<u16> = (0..program.vars).rev().collect();
    let file = reference::bytes(program, &values);
    let mut buffers = Buffers::filled(Sizes::of(program), 0xa5a5);
    let read = compare::read(&file, &buffers);
    buffers.exprs.pop();
    let read_short = compare::read(&file, &buffers);
    assert_eq!([read, read_short], numbers);
    let lent = vec![0xa5; file.len()];
    let written = compare::write(program, &values, &lent);
    let written_short = compare::write(program, &values, &lent[1..]);
    assert_eq!([written, written_short], numbers);
    assert_eq!(compare::sizes(&file), Sizes::of(program));
}

#[test]
fn at_the_limits_and_beyond() {
    let (n, e, v, c) = (MOST_NODES, MOST_EXPRS, MOST_VARS, MOST_CHANS);
    hold_limit(&with_counts(n, e, v, c), [0, 13]);
    hold_limit(&with_counts(n - 1, e - 1, v - 1, c - 1), [0, 13]);
    for past in [1, 2, 300] {
        hold_limit(&with_counts(n + past, e, v, c), [1, 1]);
        hold_limit(&with_counts(n, e + past, v, c), [1, 1]);
        hold_limit(&with_counts(n, e, v + past as u16, c), [1, 1]);
        hold_limit(&with_counts(n, e, v, c + past as u16), [1, 1]);
    }
    hold_limit(&with_counts(2, 1, 0, 65535), [1, 1]);
}

/// The reader's buffers, each from no words to more than it needs.
#[test]
fn buffers_of_every_length() {
    for sample in papers::files() {
        for which in 0..4 {
            let exact = Buffers::filled(Sizes::of(&sample.program), 0xa5a5);
            let need = exact.clone().lists()[which].len();
            for length in 0..need + 70 {
                let mut buffers = exact.clone();
                buffers.lists()[which].resize(length, 0x5a5a);
                let number = if length < need { 13 } else { 0 };
                assert_eq!(compare::read(sample.bytes, &buffers), number);
            }
        }
    }
}

/// Each a word too short, exact or a word too long, in every combination.
#[test]
fn buffers_around_their_needs() {
    let sample = papers::input_file();
    for case in 0..3_usize.pow(4) {
        let mut buffers = Buffers::filled(Sizes::of(&sample.program), 0xa5a5);
        let mut any_short = false;
        for (which, list) in buffers.lists().into_iter().enumerate() {
            let choice = case / 3_usize.pow(which as u32) % 3;
            list.resize(list.len() + choice - 1, 0x5a5a);
            any_short |= choice == 0;
        }
        let number = if any_short { 13 } else { 0 };
        assert_eq!(compare::read(sample.bytes, &buffers), number);
    }
}

#[test]
fn empty_buffers() {
    let empty = Buffers::filled(Sizes::default(), 0);
    assert_eq!(compare::read(papers::counter_file().bytes, &empty), 13);
    assert_eq!(compare::read(&[], &empty), 12);
    let mut nodes_alone = empty.clone();
    nodes_alone.nodes = vec![9; 5];
    assert_eq!(compare::read(papers::delay_file().bytes, &nodes_alone), 0);
    let delay = papers::delay_file().program;
    assert_eq!(compare::write(&delay, &[], &[]), 13);
}

#[test]
fn files_of_every_length_written() {
    for sample in papers::files() {
        let need = sample.bytes.len();
        for length in 0..need + 70 {
            let lent = vec![0xa5; length];
            let number = if length < need { 13 } else { 0 };
            assert_eq!(
                compare::write(&sample.program, &sample.values, &lent),
                number
            );
        }
    }
}

/// Where a length is cut to 16 bits, these are too short, or right though they are too long.
#[test]
fn far_too_long() {
    let sample = papers::input_file();
    for length in [65_535, 65_536, 65_537, 131_072] {
        for which in 0..4 {
            let mut buffers = Buffers::filled(Sizes::of(&sample.program), 0xa5a5);
            buffers.lists()[which].resize(length, 0x5a5a);
            assert_eq!(compare::read(sample.bytes, &buffers), 0);
        }
        let lent = vec![0xa5; length];
        assert_eq!(compare::write(&sample.program, &sample.values, &lent), 0);
    }
    let values = vec![0; 65_536 + 2];
    assert_eq!(compare::write(&sample.program, &values, &[0; 200]), 5);
    let file = [vec![0; 2 * 65_536], sample.bytes.to_vec()].concat();
    assert_eq!(ask(&file), 12);
}
