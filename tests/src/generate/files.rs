//! Files, right ones and damaged ones, and the buffers that they are read into.

use crate::file::{Buffers, Sizes};
use crate::program::{Program, MOST_VARS, MOST_WIDTH};
use crate::random::Random;
use crate::reference;

/// Words of a trailer: four counts, then four distances.
const TRAILER: usize = 8;

/// The program with lists as long as a file with its counts has them, and any values for it. Those
/// that are too large for their widths are as good as others here.
pub fn laid_out(random: &mut Random, mut program: Program) -> (Program, Vec<u16>) {
    program.exprs.truncate(3 * program.expr_count());
    program.nodes.truncate(5 * program.node_count());
    // A list for each variable that a refused program claims to have would only cost time.
    program.vars = program.vars.min(MOST_VARS + 1);
    program.widths.resize(program.vars as usize, MOST_WIDTH);
    let values = (0..program.vars).map(|_| random.word()).collect();
    (program, values)
}

/// An odd byte at the end is left out.
pub fn words_of(file: &[u8]) -> Vec<u16> {
    let (pairs, _) = file.as_chunks::<2>();
    pairs.iter().copied().map(u16::from_le_bytes).collect()
}

pub fn bytes_of(words: &[u16]) -> Vec<u8> {
    words.iter().copied().flat_map(u16::to_le_bytes).collect()
}

/// One change to the file of this program with these values.
pub fn damage_file(random: &mut Random, program: &Program, values: &[u16]) -> Vec<u8> {
    let mut file = reference::bytes(program, values);
    match random.below(12) {
        0 | 1 => change_byte(random, &mut file),
        2 | 3 => change_trailer(random, &mut file),
        4 => cut(random, &mut file),
        5 => extend(random, &mut file),
        6 => leave_a_gap(random, program, &mut file),
        7 => exchange_counts(random, &mut file),
        8 => return other_order(random, program, values),
        9 => return other_trailer(random, &file),
        10 => file.chunks_exact_mut(2).for_each(<[u8]>::reverse),
        _ => return rubbish(random),
    }
    file
}

fn change_byte(random: &mut Random, file: &mut [u8]) {
    let at = random.below(file.len());
    file[at] ^= random.between(1, 255) as u8;
}

fn change_trailer(random: &mut Random, file: &mut Vec<u8>) {
    let mut words = words_of(file);
    let at = words.len() - 1 - random.below(TRAILER);
    let word = words[at];
    let other = words.len() - 1 - random.below(TRAILER);
    words[at] = match random.below(6) {
        0 => word.wrapping_add(1),
        1 => word.wrapping_sub(1),
        2 => 0,
        3 => 65535,
        4 => words[other],
        _ => random.word(),
    };
    *file = bytes_of(&words);
}

fn cut(random: &mut Random, file: &mut Vec<u8>) {
    let bytes = random.between(1, 20).min(file.len());
    if random.percent(50) {
        file.truncate(file.len() - bytes);
    } else {
        file.drain(..bytes);
    }
}

fn extend(random: &mut Random, file: &mut Vec<u8>) {
    let bytes = random.between(1, 20);
    let more: Vec<u8> = (0..bytes).map(|_| random.word() as u8).collect();
    let at = random.pick(&[0, file.len()]);
    file.splice(at..at, more);
}

/// Some words between two parts, or before the trailer; the distances tell where the parts then stand.
fn leave_a_gap(random: &mut Random, program: &Program, file: &mut Vec<u8>) {
    let mut words = words_of(file);
    let vars = program.vars as usize;
    let behind = [program.nodes.len() + 2 * vars, 2 * vars, vars, 0];
    let part = random.below(behind.len());
    let gap = random.between(1, 3);
    let trailer = words.len() - TRAILER;
    for distance in &mut words[trailer + 4..trailer + 5 + part] {
        *distance += gap as u16;
    }
    let at = trailer - behind[part];
    words.splice(at..at, vec![0; gap]);
    *file = bytes_of(&words);
}

/// Five expressions more and three nodes fewer, or the other way round, take as many words. With the
/// distances that belong to them the file is right, and the program is another.
fn exchange_counts(random: &mut Random, file: &mut Vec<u8>) {
    let mut words = words_of(file);
    let trailer = words.len() - TRAILER;
    let (nodes, exprs) = (words[trailer], words[trailer + 1]);
    let (nodes, exprs, moved) = if exprs >= 5 && random.percent(50) {
        (nodes + 3, exprs - 5, words[trailer + 5].wrapping_add(15))
    } else if nodes >= 3 {
        (nodes - 3, exprs + 5, words[trailer + 5].wrapping_sub(15))
    } else {
        return;
    };
    words[trailer] = nodes;
    words[trailer + 1] = exprs;
    if random.percent(70) {
        words[trailer + 5] = moved;
    }
    *file = bytes_of(&words);
}

/// The parts in any order, and the distances tell where they stand.
fn other_order(random: &mut Random, program: &Program, values: &[u16]) -> Vec<u8> {
    let parts = [&program.exprs, &program.nodes, values, &program.widths];
    let mut order = [0, 1, 2, 3];
    random.shuffle(&mut order);
    let mut words = order.map(|part| parts[part]).concat();
    let front = words.len();
    let mut distances = [0; 4];
    let mut from = 0;
    for part in order {
        distances[part] = (front - from) as u16;
        from += parts[part].len();
    }
    let Sizes {
        nodes,
        exprs,
        vars,
        chans,
    } = Sizes::of(program);
    words.extend([nodes, exprs, vars, chans]);
    words.extend(distances);
    bytes_of(&words)
}

/// The trailer at the front, or twice, or with distances from the file's start or to the file's end,
/// or in bytes.
fn other_trailer(random: &mut Random, file: &[u8]) -> Vec<u8> {
    let words = words_of(file);
    let (front, trailer) = words.split_at(words.len() - TRAILER);
    let (counts, distances) = trailer.split_at(4);
    let with = |change: &dyn Fn(u16) -> u16| {
        let changed: Vec<u16> = distances.iter().map(|&word| change(word)).collect();
        [front, counts, &changed].concat()
    };
    bytes_of(&match random.below(5) {
        0 => [trailer, front].concat(),
        1 => [front, trailer, trailer].concat(),
        2 => with(&|word| front.len() as u16 - word),
        3 => with(&|word| word + TRAILER as u16),
        _ => with(&|word| word.wrapping_mul(2)),
    })
}

/// Bytes that were never a file, most of them small, so that some of the counts fit.
fn rubbish(random: &mut Random) -> Vec<u8> {
    let small = random.percent(70);
    let length = random.between(0, 60);
    let byte = |_| match small {
        true => random.pick(&[0, 0, 0, 0, 1, 2, 3, 5]),
        false => random.word() as u8,
    };
    (0..length).map(byte).collect()
}

/// Buffers with any words in them: as long as the parts need, or longer, and now and then some of
/// them too short.
pub fn buffers(random: &mut Random, sizes: Sizes) -> Buffers {
    let mut buffers = Buffers::filled(sizes, 0);
    let any_short = random.percent(15);
    for list in buffers.lists() {
        let need = list.len();
        let short = any_short && random.percent(40);
        let length = match random.below(4) {
            0 if short => 0,
            1 if short => need / 2,
            _ if short => need.saturating_sub(1),
            0 | 1 => need,
            2 => need + random.between(1, 3),
            _ => need + random.between(1, 40),
        };
        *list = (0..length).map(|_| random.word()).collect();
    }
    buffers
}
