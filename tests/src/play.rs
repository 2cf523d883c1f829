//! The program `play`, which is given a paper as a text.

use crate::program::{Program, State};
use std::env;
use std::fs;
use std::path::{Path, PathBuf};
use std::process::Command;

/// The order in which the active statements of a cycle are worked.
#[derive(Clone, Debug)]
pub enum Order {
    Up,
    Down,
    /// What is left of a book. That of a paper has an entry at least: without any, it is played in
    /// ascending order.
    Book(Vec<u16>),
}

impl Order {
    /// The entries for a cycle; those of a book are taken from it.
    pub fn entries(&mut self, state: &State) -> Vec<u16> {
        let active = state.entries();
        match self {
            Order::Up => active,
            Order::Down => active.into_iter().rev().collect(),
            Order::Book(book) => book.drain(..active.len().min(book.len())).collect(),
        }
    }

    /// A book stands in the text.
    fn argument(&self) -> Option<&'static str> {
        match self {
            Order::Up => Some("up"),
            Order::Down => Some("down"),
            Order::Book(_) => None,
        }
    }
}

/// There is a width and a value for each variable: a text can say nothing else.
pub struct TextPaper {
    pub program: Program,
    pub values: Vec<u16>,
    pub cycles: u16,
    pub order: Order,
}

impl TextPaper {
    pub fn text(&self) -> String {
        let program = &self.program;
        let [exprs, nodes] = [program.expr_count(), program.node_count()].map(|n| n as u16);
        let sizes = [exprs, nodes, program.vars, program.chans];
        let cycles = [self.cycles];
        let book: &[u16] = match &self.order {
            Order::Book(book) => book,
            _ => &[],
        };
        let mut lines = vec![&sizes[..]];
        lines.extend(program.exprs.chunks(3));
        lines.extend(program.nodes.chunks(5));
        lines.extend([&program.widths[..], &self.values, &cycles, book]);
        lines.into_iter().map(line).collect()
    }

    /// What is printed for it, with its climbs. The text is written to this file for as long as it is
    /// played.
    pub fn play_climbs(&self, file: &Path) -> String {
        fs::write(file, self.text()).expect("the file can be written");
        let mut command = Command::new(program());
        command
            .arg(file)
            .args(self.order.argument())
            .arg("--climbs");
        let result = command.output();
        fs::remove_file(file).expect("the file can be removed");
        let output = result.expect("play starts");
        let errors = String::from_utf8_lossy(&output.stderr);
        assert!(output.status.success() && errors.is_empty(), "{errors}");
        String::from_utf8(output.stdout).expect("what is printed is UTF-8")
    }
}

fn line(words: &[u16]) -> String {
    let words: Vec<String> = words.iter().map(u16::to_string).collect();
    words.join(" ") + "\n"
}

/// The program of this checkout, or another that is named by `PLAY_PROGRAM`.
fn program() -> PathBuf {
    let path = match env::var_os("PLAY_PROGRAM") {
        Some(given) => PathBuf::from(given),
        None => Path::new(env!("CARGO_MANIFEST_DIR")).join("../crates/play/out/play"),
    };
    let shown = path.display();
    assert!(
        path.is_file(),
        "there is no {shown}: `rt ci play` at the top builds it, and so does ./test"
    );
    path
}
