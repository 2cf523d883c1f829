//! That `include/player.h` and `include/paper.h` are good C and C++, in every standard from C89 and
//! C++98 on, each alone and both together.

use std::fs;
use std::io::ErrorKind;
use std::path::{Path, PathBuf};
use std::process::{Command, Output};

/// c2x is the name that the compilers gave to C23 before it was out.
const C: [&str; 5] = ["c89", "c99", "c11", "c17", "c2x"];
const CPP: [&str; 5] = ["c++98", "c++11", "c++14", "c++17", "c++20"];

/// Includes the header of the player twice, calls every function, and names every number.
const PLAYER_USER: &str = r#"
#include "player.h"
#include "player.h"

uint64_t use_player(const uint16_t *words, uint16_t *values, uint8_t *marks, uint16_t *counts);

uint64_t use_player(const uint16_t *words, uint16_t *values, uint8_t *marks, uint16_t *counts)
{
    if ((player_check(words, 3, words, 5, words, 1, 1, 0) & 65535u) != PLAYER_OK) {
        return PLAYER_SIZES + PLAYER_EXPRESSION + PLAYER_NODE + PLAYER_RANGE + PLAYER_WIDTHS;
    }
    if (player_begin(words, 3, words, 5, words, 1, 1, 0, values, 1, marks, 1, counts, 1) != PLAYER_OK) {
        return PLAYER_STATE_LENGTHS + PLAYER_STATE + PLAYER_BOOK + PLAYER_CHANNEL + PLAYER_STORE + PLAYER_ZERO_TIME;
    }
    return player_run(words, 3, words, 5, words, 1, 1, 0, values, 1, marks, 1, counts, 1, words, 1, 5);
}
"#;

/// The same for the header of files. An array of no element's size is refused, so that each of its
/// conditions has to hold.
const PAPER_USER: &str = r#"
#include "paper.h"
#include "paper.h"

#define HOLDS(name, condition) typedef char name[(condition) ? 1 : -1]
#define COUNTS ((uint64_t)65535u << 48 | (uint64_t)3u << 32 | (uint64_t)65534u << 16 | (uint64_t)1u)

HOLDS(paper_order_of_numbers, PAPER_OK == 0 && PAPER_SIZES == 1 && PAPER_EXPRESSION == 2 && PAPER_NODE == 3);
HOLDS(paper_more_numbers, PAPER_RANGE == 4 && PAPER_WIDTHS == 11 && PAPER_VALUES_LENGTH == 5);
HOLDS(paper_numbers_of_files, PAPER_FILE == 12 && PAPER_BUFFER == 13);
HOLDS(paper_number_of_answer, PAPER_NUMBER((uint32_t)7u << 16 | 3u) == 3);
HOLDS(paper_item_of_answer, PAPER_ITEM((uint32_t)65535u << 16 | 3u) == 65535);
HOLDS(paper_counts_of_sizes, PAPER_NODES(COUNTS) == 1 && PAPER_EXPRS(COUNTS) == 65534);
HOLDS(paper_more_counts_of_sizes, PAPER_VARS(COUNTS) == 3 && PAPER_CHANS(COUNTS) == 65535);
HOLDS(paper_count_is_a_word, sizeof(PAPER_NODES(COUNTS)) == sizeof(uint16_t));
HOLDS(paper_bytes_of_a_delay, PAPER_FILE_BYTES(1, 0, 0) == 26);
HOLDS(paper_bytes_of_a_sum, PAPER_FILE_BYTES(1 + 1, 2 + 1, 0 + 1) == 58);
HOLDS(paper_bytes_of_the_largest, PAPER_FILE_BYTES(1024, 1024, 256) == 17424);
HOLDS(paper_bytes_are_a_size, sizeof(PAPER_FILE_BYTES(1, 0, 0)) == sizeof(size_t));

uint32_t use_paper(uint8_t *file, uint16_t *exprs, uint16_t *nodes, uint16_t *values, uint16_t *widths);

uint32_t use_paper(uint8_t *file, uint16_t *exprs, uint16_t *nodes, uint16_t *values, uint16_t *widths)
{
    uint8_t other[PAPER_FILE_BYTES(1, 1, 1)];
    uint64_t sizes = paper_sizes(file, sizeof other);
    if (PAPER_CHANS(sizes) != 0 || PAPER_FILE_BYTES(PAPER_NODES(sizes), PAPER_EXPRS(sizes), PAPER_VARS(sizes)) != 36) {
        return PAPER_FILE;
    }
    if (PAPER_NUMBER(paper_read(file, 36, exprs, 3, nodes, 5, values, 1, widths, 1)) != PAPER_OK) {
        return PAPER_BUFFER;
    }
    return paper_write(exprs, 3, nodes, 5, widths, 1, 1, 0, values, 1, other, sizeof other);
}
"#;

/// Each alone, then both, in either order.
fn users() -> [(&'static str, String); 4] {
    [
        ("player", PLAYER_USER.to_string()),
        ("paper", PAPER_USER.to_string()),
        ("player_paper", [PLAYER_USER, PAPER_USER].concat()),
        ("paper_player", [PAPER_USER, PLAYER_USER].concat()),
    ]
}

fn root() -> PathBuf {
    Path::new(env!("CARGO_MANIFEST_DIR")).join("..")
}

/// A file of this name and text, in the tests' folder for such files.
fn written(name: &str, text: &str) -> PathBuf {
    let folder = Path::new(env!("CARGO_TARGET_TMPDIR")).join("header");
    fs::create_dir_all(&folder).expect("the folder can be made");
    let path = folder.join(name);
    fs::write(&path, text).expect("the file can be written");
    path
}

/// Nothing if there is no such compiler.
fn compile(compiler: &str, standard: &str, file: &Path) -> Option<Output> {
    let result = Command::new(compiler)
        .arg(format!("-std={standard}"))
        .args(["-Wall", "-Wextra", "-pedantic", "-Werror", "-fsyntax-only"])
        .arg("-I")
        .arg(root().join("include"))
        .arg(file)
        .output();
    match result {
        Ok(output) => Some(output),
        Err(error) if error.kind() == ErrorKind::NotFound => None,
        Err(error) => panic!("{compiler} does not start: {error}"),
    }
}

fn hold(compiler: &str, standards: &[&str], file: &Path) {
    let mut refused = Vec::new();
    for standard in standards {
        let Some(output) = compile(compiler, standard, file) else {
            println!("{compiler} is not installed: nothing is tested with it");
            return;
        };
        if !output.status.success() {
            let said = String::from_utf8_lossy(&output.stderr).into_owned();
            refused.push(format!("{compiler} -std={standard}:\n{said}"));
        }
    }
    assert!(refused.is_empty(), "{}", refused.join("\n"));
    println!("{compiler}: {} standards", standards.len());
}

#[test]
fn header_in_c() {
    for (name, text) in users() {
        let file = written(&format!("{name}.c"), &text);
        hold("gcc", &C, &file);
        hold("clang", &C, &file);
    }
}

#[test]
fn header_in_cpp() {
    for (name, text) in users() {
        let file = written(&format!("{name}.cpp"), &text);
        hold("g++", &CPP, &file);
        hold("clang++", &CPP, &file);
    }
}

/// What one of the standards does not allow is refused in it, so that the tests above can fail.
#[test]
fn a_fault_is_refused() {
    let faulty = [
        ("gcc", "c89", "comment.c", "// not in C89\nint name;\n"),
        (
            "gcc",
            "c99",
            "parameter.c",
            "int f(int unused) { return 1; }\n",
        ),
        ("gcc", "c11", "enum.c", "enum e { ONE = 5000000000 };\n"),
        (
            "gcc",
            "c99",
            "condition.c",
            "typedef char no[2 > 3 ? 1 : -1];\n",
        ),
        ("g++", "c++98", "long.cpp", "long long name;\n"),
    ];
    for (compiler, standard, name, text) in faulty {
        let file = written(name, text);
        if let Some(output) = compile(compiler, standard, &file) {
            assert!(!output.status.success(), "{compiler} {standard}: {text}");
        }
    }
}
