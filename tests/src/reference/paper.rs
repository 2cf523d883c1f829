//! Papers as files: questions 12 and 13, with what check asks and question 5 of the values. The
//! writer joins lists of words and turns them into bytes at the end. The reader takes the parts off
//! the end of the file, the last one first, and measures how far back each of them begins.

use super::check::check;
use crate::answer::Answer;
use crate::file::{Buffers, Sizes};
use crate::program::Program;

/// What stands in a file that question 12 lets by.
struct Contents {
    program: Program,
    values: Vec<u16>,
}

pub fn sizes(file: &[u8]) -> Sizes {
    contents(file).map_or(Sizes::default(), |found| Sizes::of(&found.program))
}

/// The answer, and the buffers as the call leaves them.
pub fn read(file: &[u8], lent: &Buffers) -> (Answer, Buffers) {
    let refused = |answer: Answer| (answer, lent.clone());
    let Some(found) = contents(file) else {
        return refused(Answer::without_item(12));
    };
    let checked = check(&found.program);
    if checked.number != 0 {
        return refused(checked);
    }
    match filled(&found, lent) {
        Some(buffers) => (Answer::without_item(0), buffers),
        None => refused(Answer::without_item(13)),
    }
}

/// The answer, and the bytes lent for the file as the call leaves them.
pub fn write(program: &Program, values: &[u16], lent: &[u8]) -> (Answer, Vec<u8>) {
    let refused = |answer: Answer| (answer, lent.to_vec());
    let checked = check(program);
    if checked.number != 0 {
        return refused(checked);
    }
    if values.len() != program.vars as usize {
        return refused(Answer::without_item(5));
    }
    match laid_over(&bytes(program, values), lent) {
        Some(file) => (Answer::without_item(0), file),
        None => refused(Answer::without_item(13)),
    }
}

/// The lists as a file, whatever check would say of them. A distance that is no word is cut to one.
pub fn bytes(program: &Program, values: &[u16]) -> Vec<u8> {
    let parts = [&program.exprs, &program.nodes, values, &program.widths];
    let sizes = Sizes::of(program);
    let mut words = parts.concat();
    words.extend([sizes.nodes, sizes.exprs, sizes.vars, sizes.chans]);
    let behind = |part: usize| parts[part..].iter().map(|list| list.len()).sum::<usize>();
    words.extend((0..parts.len()).map(|part| behind(part) as u16));
    words.into_iter().flat_map(u16::to_le_bytes).collect()
}

/// Nothing where question 12 fails.
fn contents(file: &[u8]) -> Option<Contents> {
    let (pairs, odd) = file.as_chunks::<2>();
    let words: Vec<u16> = pairs.iter().copied().map(u16::from_le_bytes).collect();
    let (front, &[nodes, exprs, vars, chans, ref distances @ ..]) =
        words.split_last_chunk::<8>()?;
    let mut left = front;
    let mut take = |records: u16, words: usize| {
        let at = left.len().checked_sub(records as usize * words)?;
        let (before, part) = left.split_at(at);
        left = before;
        Some((part.to_vec(), front.len() - at))
    };
    let (widths, to_widths) = take(vars, 1)?;
    let (values, to_values) = take(vars, 1)?;
    let (nodes, to_nodes) = take(nodes, 5)?;
    let (exprs, to_exprs) = take(exprs, 3)?;
    let measured = [to_exprs, to_nodes, to_values, to_widths];
    // Compared as numbers: one above 65,535 is equal to no word.
    let told = distances.iter().map(|&word| word as usize);
    let program = Program {
        exprs,
        nodes,
        widths,
        vars,
        chans,
    };
    let right = odd.is_empty() && left.is_empty() && told.eq(measured);
    right.then_some(Contents { program, values })
}

/// Nothing where question 13 fails.
fn filled(found: &Contents, lent: &Buffers) -> Option<Buffers> {
    Some(Buffers {
        exprs: laid_over(&found.program.exprs, &lent.exprs)?,
        nodes: laid_over(&found.program.nodes, &lent.nodes)?,
        values: laid_over(&found.values, &lent.values)?,
        widths: laid_over(&found.program.widths, &lent.widths)?,
    })
}

/// The list, then what the buffer has beyond its length; nothing where the buffer is shorter.
fn laid_over<T: Clone>(list: &[T], buffer: &[T]) -> Option<Vec<T>> {
    let spare = buffer.get(list.len()..)?;
    Some([list, spare].concat())
}
