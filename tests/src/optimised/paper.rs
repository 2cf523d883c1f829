//! Reading and writing files, written for speed. The program of a file is looked at where it stands,
//! and each word is copied once, and only where all questions are answered with yes. Nothing is
//! allocated, unless a program is refused: by which question and where need not be found quickly.

use super::accept::{accepted, accepted_records};
use crate::answer::Answer;
use crate::file::{Buffers, Sizes};
use crate::program::Program;
use crate::reference;

/// A file that question 12 lets by.
struct Parts<'a> {
    sizes: Sizes,
    exprs: &'a [[u8; 6]],
    nodes: &'a [[u8; 10]],
    values: &'a [[u8; 2]],
    widths: &'a [[u8; 2]],
}

pub fn sizes(file: &[u8]) -> Sizes {
    parts(file).map_or(Sizes::default(), |parts| parts.sizes)
}

/// The buffers are written in place.
pub fn read(file: &[u8], buffers: &mut Buffers) -> Answer {
    let Some(parts) = parts(file) else {
        return Answer::without_item(12);
    };
    if !parts.accepted() {
        return reference::check(&parts.program());
    }
    let Some([exprs, nodes, values, widths]) = room(parts.sizes, buffers) else {
        return Answer::without_item(13);
    };
    copy(exprs, parts.exprs.as_flattened());
    copy(nodes, parts.nodes.as_flattened());
    copy(values, parts.values.as_flattened());
    copy(widths, parts.widths.as_flattened());
    Answer::without_item(0)
}

/// The file is written in place.
pub fn write(program: &Program, values: &[u16], file: &mut [u8]) -> Answer {
    if !accepted(program) {
        return reference::check(program);
    }
    if values.len() != program.vars as usize {
        return Answer::without_item(5);
    }
    let sizes = Sizes::of(program);
    let distances = distances(sizes);
    let Some(file) = file.get_mut(..2 * distances[0] + 16) else {
        return Answer::without_item(13);
    };
    let mut left = file;
    for part in [&program.exprs, &program.nodes, values, &program.widths] {
        left = put(left, part);
    }
    left = put(left, &[sizes.nodes, sizes.exprs, sizes.vars, sizes.chans]);
    put(left, &distances.map(|distance| distance as u16));
    Answer::without_item(0)
}

/// What the counts require.
fn distances(sizes: Sizes) -> [usize; 4] {
    let vars = sizes.vars as usize;
    let nodes = 5 * sizes.nodes as usize + 2 * vars;
    [3 * sizes.exprs as usize + nodes, nodes, 2 * vars, vars]
}

fn words<const BYTES: usize, const WORDS: usize>(bytes: &[u8; BYTES]) -> [u16; WORDS] {
    std::array::from_fn(|at| u16::from_le_bytes([bytes[2 * at], bytes[2 * at + 1]]))
}

/// Nothing where question 12 fails.
fn parts(file: &[u8]) -> Option<Parts<'_>> {
    let (front, trailer) = file.split_last_chunk::<16>()?;
    let [nodes, exprs, vars, chans, told @ ..] = words::<16, 8>(trailer);
    let sizes = Sizes {
        nodes,
        exprs,
        vars,
        chans,
    };
    let required = distances(sizes);
    if front.len() != 2 * required[0] || told.map(usize::from) != required {
        return None;
    }
    let (exprs, rest) = front.split_at(6 * exprs as usize);
    let (nodes, rest) = rest.split_at(10 * nodes as usize);
    let (values, widths) = rest.split_at(2 * vars as usize);
    Some(Parts {
        sizes,
        exprs: exprs.as_chunks().0,
        nodes: nodes.as_chunks().0,
        values: values.as_chunks().0,
        widths: widths.as_chunks().0,
    })
}

impl Parts<'_> {
    fn accepted(&self) -> bool {
        accepted_records(
            self.sizes,
            self.exprs.iter().map(words::<6, 3>),
            self.nodes.iter().map(words::<10, 5>),
            self.widths.iter().copied().map(u16::from_le_bytes),
        )
    }

    fn program(&self) -> Program {
        Program {
            exprs: self.exprs.iter().flat_map(words::<6, 3>).collect(),
            nodes: self.nodes.iter().flat_map(words::<10, 5>).collect(),
            widths: self.widths.iter().flat_map(words::<2, 1>).collect(),
            vars: self.sizes.vars,
            chans: self.sizes.chans,
        }
    }
}

/// As much of each buffer as its part needs; nothing where one has less.
fn room(sizes: Sizes, buffers: &mut Buffers) -> Option<[&mut [u16]; 4]> {
    let vars = sizes.vars as usize;
    Some([
        buffers.exprs.get_mut(..3 * sizes.exprs as usize)?,
        buffers.nodes.get_mut(..5 * sizes.nodes as usize)?,
        buffers.values.get_mut(..vars)?,
        buffers.widths.get_mut(..vars)?,
    ])
}

fn copy(to: &mut [u16], from: &[u8]) {
    for (word, &pair) in to.iter_mut().zip(from.as_chunks().0) {
        *word = u16::from_le_bytes(pair);
    }
}

/// Writes the words from the beginning on, and gives what is left behind them.
fn put<'a>(file: &'a mut [u8], list: &[u16]) -> &'a mut [u8] {
    let (to, rest) = file.split_at_mut(2 * list.len());
    for (pair, word) in to.as_chunks_mut().0.iter_mut().zip(list) {
        *pair = word.to_le_bytes();
    }
    rest
}
