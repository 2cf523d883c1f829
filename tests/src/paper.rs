//! The C interface of the calls on files. A list is passed as a pointer and its length in elements.

use crate::answer::Answer;
use crate::file::{Buffers, Sizes};
use crate::program::Program;

extern "C" {
    fn paper_sizes(file: *const u8, file_len: usize) -> u64;

    fn paper_read(
        file: *const u8,
        file_len: usize,
        exprs: *mut u16,
        exprs_len: usize,
        nodes: *mut u16,
        nodes_len: usize,
        values: *mut u16,
        values_len: usize,
        widths: *mut u16,
        widths_len: usize,
    ) -> u32;

    fn paper_write(
        exprs: *const u16,
        exprs_len: usize,
        nodes: *const u16,
        nodes_len: usize,
        widths: *const u16,
        widths_len: usize,
        vars: u16,
        chans: u16,
        values: *const u16,
        values_len: usize,
        file: *mut u8,
        file_len: usize,
    ) -> u32;
}

fn answer(word: u32) -> Answer {
    Answer {
        number: word as u16,
        item: (word >> 16) as u16,
    }
}

pub fn sizes(file: &[u8]) -> Sizes {
    // Sound: the pointer and the length are those of a live slice, which the call only reads.
    let word = unsafe { paper_sizes(file.as_ptr(), file.len()) };
    Sizes {
        nodes: word as u16,
        exprs: (word >> 16) as u16,
        vars: (word >> 32) as u16,
        chans: (word >> 48) as u16,
    }
}

/// The buffers are written in place.
pub fn read(file: &[u8], buffers: &mut Buffers) -> Answer {
    let [exprs, nodes, values, widths] = buffers.lists();
    read_slices(file, exprs, nodes, values, widths)
}

pub fn read_slices(
    file: &[u8],
    exprs: &mut [u16],
    nodes: &mut [u16],
    values: &mut [u16],
    widths: &mut [u16],
) -> Answer {
    // Sound: as above, and the four lists that the call writes are borrowed for it alone.
    let word = unsafe {
        paper_read(
            file.as_ptr(),
            file.len(),
            exprs.as_mut_ptr(),
            exprs.len(),
            nodes.as_mut_ptr(),
            nodes.len(),
            values.as_mut_ptr(),
            values.len(),
            widths.as_mut_ptr(),
            widths.len(),
        )
    };
    answer(word)
}

/// The file is written in place.
pub fn write(program: &Program, values: &[u16], file: &mut [u8]) -> Answer {
    // Sound: as above, with one list borrowed for the call alone.
    let word = unsafe {
        paper_write(
            program.exprs.as_ptr(),
            program.exprs.len(),
            program.nodes.as_ptr(),
            program.nodes.len(),
            program.widths.as_ptr(),
            program.widths.len(),
            program.vars,
            program.chans,
            values.as_ptr(),
            values.len(),
            file.as_mut_ptr(),
            file.len(),
        )
    };
    answer(word)
}
