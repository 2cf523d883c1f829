//! The example papers as text and as file: `examples/gcd.words` is what is written for the program and
//! the values of `examples/gcd.paper`, and so is `examples/pipeline.words` for its paper.

use pahmozil_tests::answer::Answer;
use pahmozil_tests::file::{Buffers, Sizes};
use pahmozil_tests::paper;
use pahmozil_tests::program::Program;
use pahmozil_tests::reference;
use std::fs;
use std::path::{Path, PathBuf};

const NAMES: [&str; 2] = ["gcd", "pipeline"];

const NO_FAULT: Answer = Answer { number: 0, item: 0 };

fn example(name: &str, ending: &str) -> PathBuf {
    let folder = Path::new(env!("CARGO_MANIFEST_DIR")).join("../examples");
    folder.join(format!("{name}.{ending}"))
}

/// The decimal words of a text, without its comments.
fn words(text: &str) -> Vec<u16> {
    let code = text.lines().filter_map(|line| line.split('#').next());
    code.flat_map(|line| line.split([' ', ',', '\t']))
        .filter(|word| !word.is_empty())
        .map(|word| word.parse().expect("a decimal word"))
        .collect()
}

/// The next words of a text.
fn take(words: &mut std::vec::IntoIter<u16>, count: u16) -> Vec<u16> {
    let list: Vec<u16> = words.take(count as usize).collect();
    assert_eq!(list.len(), count as usize, "the text ends early");
    list
}

/// The program and the values; the cycles and the book come after them, and are left.
fn parsed(text: &str) -> (Program, Vec<u16>) {
    let mut left = words(text).into_iter();
    let counts = take(&mut left, 4);
    let [exprs, nodes, vars, chans] = counts[..] else {
        unreachable!("four were taken")
    };
    let program = Program {
        exprs: take(&mut left, 3 * exprs),
        nodes: take(&mut left, 5 * nodes),
        widths: take(&mut left, vars),
        vars,
        chans,
    };
    (program, take(&mut left, vars))
}

fn by_text(name: &str) -> (Program, Vec<u16>) {
    let text = fs::read_to_string(example(name, "paper")).expect("the paper can be read");
    parsed(&text)
}

fn by_file(name: &str) -> Vec<u8> {
    fs::read(example(name, "words")).expect("the file can be read")
}

#[test]
fn a_text_is_parsed() {
    let text = "# A title\n3 2 1 0 # counts\n0 1 0, 1 0 0\n2,1,0\n\n7 65535 2 0 0\n3 0 2 0 2\n12\n4094 3 1 1";
    let (program, values) = parsed(text);
    assert_eq!(program.exprs, [0, 1, 0, 1, 0, 0, 2, 1, 0]);
    assert_eq!(program.nodes, [7, 65535, 2, 0, 0, 3, 0, 2, 0, 2]);
    assert_eq!((program.widths, values), (vec![12], vec![4094]));
    assert_eq!((program.vars, program.chans), (1, 0));
}

#[test]
fn written_as_the_files_are() {
    for name in NAMES {
        let (program, values) = by_text(name);
        let expected = by_file(name);
        assert_eq!(reference::bytes(&program, &values), expected, "{name}");
        let mut file = vec![0xa5; expected.len()];
        let answer = paper::write(&program, &values, &mut file);
        assert_eq!((answer, file), (NO_FAULT, expected), "{name}");
    }
}

#[test]
fn read_as_the_texts_are() {
    for name in NAMES {
        let (program, values) = by_text(name);
        let file = by_file(name);
        let sizes = paper::sizes(&file);
        assert_eq!(sizes, Sizes::of(&program), "{name}");
        let mut buffers = Buffers::filled(sizes, 0xa5a5);
        let answer = paper::read(&file, &mut buffers);
        let expected = Buffers {
            exprs: program.exprs,
            nodes: program.nodes,
            values,
            widths: program.widths,
        };
        assert_eq!((answer, buffers), (NO_FAULT, expected), "{name}");
    }
}
