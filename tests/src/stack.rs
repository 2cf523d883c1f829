//! How many bytes of the stack a call writes. The stack below the caller is painted with one word
//! again and again, and after the call the lowest word that is no longer that word is looked for.

use std::hint::black_box;
use std::ptr::{read_volatile, write_volatile};
use std::thread;

const PAINT: u64 = 0x9d3c_71e6_5ab8_240f;

/// Bytes that are painted; a call that goes deeper than this is not measured.
pub const PAINTED: usize = 256 * 1024;

/// Bytes right below the caller that are left alone, since the painter's own frame stands in them.
const LEFT: usize = 1024;

const WORD: usize = size_of::<u64>();

/// Runs the body on a thread whose stack has room for what is painted and for the test itself.
pub fn on_a_large_stack<T: Send>(body: impl FnOnce() -> T + Send) -> T {
    thread::scope(|scope| {
        let thread = thread::Builder::new().stack_size(PAINTED + (1 << 20));
        let handle = thread
            .spawn_scoped(scope, body)
            .expect("a thread is started");
        handle
            .join()
            .unwrap_or_else(|panic| std::panic::resume_unwind(panic))
    })
}

/// Bytes between the caller's frame and the lowest byte that the call writes, or 0 where the call
/// stays within the part that is not painted. Only for bodies of `on_a_large_stack`.
#[inline(never)]
pub fn depth_of(mut call: impl FnMut()) -> usize {
    let here = 0_u64;
    let top = black_box(&raw const here) as usize;
    // The first call finds what the system sets up once.
    call();
    paint(top);
    call();
    written(top)
}

#[inline(never)]
fn paint(top: usize) {
    for address in (top - PAINTED..top - LEFT).step_by(WORD) {
        // Sound: the words are aligned, the thread's stack reaches lower than they stand, and no
        // live frame is among them: all of those stand above `top`, but for this function's.
        unsafe { write_volatile(address as *mut u64, PAINT) };
    }
}

#[inline(never)]
fn written(top: usize) -> usize {
    let mut words = (top - PAINTED..top - LEFT).step_by(WORD);
    // Sound: these words were written by `paint`.
    let lowest = words.find(|&address| unsafe { read_volatile(address as *const u64) } != PAINT);
    assert_ne!(
        lowest,
        Some(top - PAINTED),
        "the call went deeper than is painted"
    );
    lowest.map_or(0, |address| top - address)
}
