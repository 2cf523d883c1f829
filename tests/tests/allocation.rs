//! That the cycles of the optimised run allocate nothing: a long run asks for memory as often as a
//! run of one cycle. That the optimised reading and writing of files ask for none at all. Of the
//! libraries `archives.rs` tells that they cannot ask.

use pahmozil_tests::answer::Answer;
use pahmozil_tests::file::{Buffers, Sizes};
use pahmozil_tests::optimised;
use pahmozil_tests::workloads::{self, FileWorkload, Workload};
use std::alloc::{GlobalAlloc, Layout, System};
use std::cell::Cell;

struct Counting;

thread_local! {
    // For each thread, since the test harness has others.
    static TIMES: Cell<usize> = const { Cell::new(0) };
}

// Sound: every request is passed on as it is. The other methods have defaults that come here.
unsafe impl GlobalAlloc for Counting {
    unsafe fn alloc(&self, layout: Layout) -> *mut u8 {
        TIMES.set(TIMES.get() + 1);
        System.alloc(layout)
    }

    unsafe fn dealloc(&self, block: *mut u8, layout: Layout) {
        System.dealloc(block, layout)
    }
}

#[global_allocator]
static COUNTING: Counting = Counting;

/// How often a run of so many cycles asks for memory.
fn requests(workload: &Workload, schedule: &[u16], cycles: u16) -> usize {
    let mut state = workload.start.clone();
    let before = TIMES.get();
    let answer = optimised::run(&workload.program, &mut state, schedule, cycles);
    let requests = TIMES.get() - before;
    let expected = (Answer::without_item(0), cycles);
    assert_eq!(answer, expected, "{}", workload.name);
    requests
}

#[test]
fn cycles_allocate_nothing() {
    for workload in workloads::all() {
        let Workload { program, start, .. } = &workload;
        let schedule = optimised::ascending_schedule(program, start, 1_000);
        let once = requests(&workload, &schedule, 1);
        let often = requests(&workload, &schedule, 1_000);
        println!("{}: {once} requests", workload.name);
        assert!(once > 0, "the requests are counted");
        assert_eq!(often, once, "{}", workload.name);
    }
}

#[test]
fn files_allocate_nothing() {
    for workload in workloads::files() {
        let FileWorkload {
            name,
            program,
            values,
            file,
        } = &workload;
        let mut buffers = Buffers::filled(Sizes::of(program), 0);
        let mut lent = vec![0; file.len()];
        let before = TIMES.get();
        let sizes = optimised::sizes(file);
        let read = optimised::read(file, &mut buffers);
        let written = optimised::write(program, values, &mut lent);
        let requests = TIMES.get() - before;
        assert_eq!((sizes, requests), (Sizes::of(program), 0), "{name}");
        assert_eq!([read, written], [Answer::without_item(0); 2], "{name}");
    }
}
