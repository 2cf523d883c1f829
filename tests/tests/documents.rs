//! That the documents speak of what there is: links, paths, commands and names.

use pahmozil_tests::documents::{faults, words, Sources};
use std::fs;
use std::path::{Path, PathBuf};

/// Has names that do not exist, to test the test.
const THIS_FILE: &str = "tests/tests/documents.rs";

fn root() -> PathBuf {
    Path::new(env!("CARGO_MANIFEST_DIR")).join("..")
}

/// From the root, in order.
fn documents() -> Vec<String> {
    let mut list = vec!["README.md".to_string()];
    if root().join("CONTRIBUTING.md").exists() {
        list.push("CONTRIBUTING.md".to_string());
    }
    let folder = fs::read_dir(root().join("docs")).expect("the folder can be read");
    let names = folder.map(|entry| entry.expect("the entry can be read").file_name());
    let mut docs: Vec<String> = names
        .map(|name| format!("docs/{}", name.to_string_lossy()))
        .filter(|path| path.ends_with(".md"))
        .collect();
    docs.sort();
    list.extend(docs);
    list
}

#[test]
fn all_that_the_documents_name_exists() {
    let sources = Sources::read(&root(), &[THIS_FILE]);
    let mut missing = Vec::new();
    for path in documents() {
        let text = fs::read_to_string(root().join(&path)).expect("the document can be read");
        let folder = Path::new(&path)
            .parent()
            .expect("a file stands in a folder");
        let found = faults(&sources, folder, &text)
            .into_iter()
            .map(|(line, what)| format!("{path}:{line}: {what}"));
        missing.extend(found);
    }
    assert!(missing.is_empty(), "not found:\n{}", missing.join("\n"));
}

fn faults_of(document: &str) -> Vec<(usize, String)> {
    let sources = Sources::read(&root(), &[THIS_FILE]);
    faults(&sources, Path::new("docs"), document)
}

#[test]
fn what_exists_is_let_by() {
    let document = "\
        See [the figures](BENCHMARK.md), [`README`](../README.md#figures), [above](#what) and \
        [out there](https://example.org/none.md). `include/player.h`, `docs/BENCHMARK.md`, `BENCHMARK.md`, \
        `player/src/lib.rt`, `must-fail/`, `must-fail/*.edit`, `crates/NAME/must-fail/NAME.edit`, `./play`, `target/staticlib/x.a`, \
        `player_run`, `player::run`, `program::check`, `Check.check_number`, `order_rule`, \
        `faults_of`, `what_exists_is_let_by`, `PLAYER_LIB_DIR`, `u16`, `asked_as_worked`, \
        `v0:=v1`, `PAR{..}`, `axioms=9`, `65,535`, `..`, `&&`, `./play 3 down`, `N passed, 0 failed`, \
        `rt ci player_c`.\n\n```sh\nno-such-command `no_such_name`\n```\n";
    let sources = Sources::read(&root(), &[]);
    assert_eq!(faults(&sources, Path::new("docs"), document), []);
}

#[test]
fn what_does_not_exist_is_found() {
    for (document, fault) in [
        ("See [this](MISSING.md).", "link MISSING.md"),
        (
            "See [`u16`](../docs/MISSING.md#there).",
            "link ../docs/MISSING.md",
        ),
        ("[this]: MISSING.md", "link MISSING.md"),
        ("`include/missing.h`", "include/missing.h"),
        ("`missing.rt`", "missing.rt"),
        ("`crates/NAME/no-such-folder`", "crates/NAME/no-such-folder"),
        (
            "`must-fail/no_such_edit.edit`",
            "must-fail/no_such_edit.edit",
        ),
        ("`no_such_name`", "no_such_name"),
        ("`no-such-law`", "no-such-law"),
        ("`u16`-`rule-order`", "rule-order"),
        ("`Check.noSuchName`", "Check.noSuchName"),
        ("`Check.leave_child`", "Check.leave_child"),
        ("`NoSuchFile.check_number`", "NoSuchFile.check_number"),
        ("`player::no_such_name`", "player::no_such_name"),
        (
            "`Check.noSuchName P ≡ 0`",
            "Check.noSuchName in Check.noSuchName P ≡ 0",
        ),
        ("`rt check nothing`", "rt check nothing"),
    ] {
        let found = faults_of(document);
        let [(1, what)] = &found[..] else {
            panic!("{document}: {found:?}");
        };
        assert!(what.starts_with(fault), "{document}: {found:?}");
    }
    assert_eq!(faults_of("`u16`\n\n`no_such_name`")[0].0, 3);
}

/// A name that stands in a comment only, and a part of a longer name, do not count.
#[test]
fn a_name_is_a_whole_word_of_the_code() {
    let words = |ending, text| Vec::from_iter(words(ending, text));
    assert_eq!(words("antt", "a-law : b′ -- gone"), ["a-law", "b′"]);
    assert_eq!(
        words("rs", "one::two(three) // gone"),
        ["one", "three", "two"]
    );
    assert_eq!(
        words("h", "/* gone */ int name; /* gone\n gone */"),
        ["int", "name"]
    );
    assert_eq!(words("", "rt fmt # gone"), ["fmt", "rt"]);
}
