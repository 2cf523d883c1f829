//! The reading and writing of files: the library, the reference and the optimised version.

use pahmozil_tests::answer::Answer;
use pahmozil_tests::file::{Buffers, Sizes};
use pahmozil_tests::optimised;
use pahmozil_tests::paper;
use pahmozil_tests::program::Program;
use pahmozil_tests::reference;
use pahmozil_tests::stopwatch::measure_again;
use pahmozil_tests::workloads::FileWorkload;
use std::hint::black_box;

/// Fills the buffers in place.
type Read = fn(&[u8], &mut Buffers) -> Answer;

/// Writes the file in place.
type Write = fn(&Program, &[u16], &mut [u8]) -> Answer;

const READS: [Read; 3] = [paper::read, read_by_reference, optimised::read];
const WRITES: [Write; 3] = [paper::write, write_by_reference, optimised::write];

fn read_by_reference(file: &[u8], buffers: &mut Buffers) -> Answer {
    let (answer, after) = reference::read(file, buffers);
    *buffers = after;
    answer
}

fn write_by_reference(program: &Program, values: &[u16], file: &mut [u8]) -> Answer {
    let (answer, after) = reference::write(program, values, file);
    file.copy_from_slice(&after);
    answer
}

/// A paper that is read and written, and its least times in nanoseconds, in the order of the calls.
pub struct Row {
    workload: FileWorkload,
    buffers: Buffers,
    lent: Vec<u8>,
    per_read: [f64; 3],
    per_write: [f64; 3],
}

impl Row {
    pub fn new(workload: FileWorkload) -> Row {
        let mut row = Row {
            buffers: Buffers::filled(Sizes::of(&workload.program), 0),
            lent: vec![0; workload.file.len()],
            workload,
            per_read: [f64::INFINITY; 3],
            per_write: [f64::INFINITY; 3],
        };
        row.demand_right_calls();
        row
    }

    /// One measurement of each call.
    pub fn measure(&mut self) {
        let FileWorkload {
            program,
            values,
            file,
            ..
        } = &self.workload;
        for (at, read) in READS.into_iter().enumerate() {
            let time = measure_again(|| {
                black_box(read(black_box(file), black_box(&mut self.buffers)));
            });
            self.per_read[at] = self.per_read[at].min(time);
        }
        for (at, write) in WRITES.into_iter().enumerate() {
            let time = measure_again(|| {
                let lent = black_box(&mut self.lent);
                black_box(write(black_box(program), black_box(values), lent));
            });
            self.per_write[at] = self.per_write[at].min(time);
        }
    }

    /// Each reads the paper out of the file, and writes the file of the paper.
    fn demand_right_calls(&mut self) {
        let FileWorkload {
            name,
            program,
            values,
            file,
        } = &self.workload;
        let none = Answer::without_item(0);
        for (read, write) in READS.into_iter().zip(WRITES) {
            self.buffers = Buffers::filled(Sizes::of(program), 0);
            assert_eq!(read(file, &mut self.buffers), none, "{name}");
            let expected = [&program.exprs, &program.nodes, values, &program.widths];
            assert_eq!(self.buffers.lists().map(|list| &*list), expected, "{name}");
            self.lent.fill(0);
            assert_eq!(write(program, values, &mut self.lent), none, "{name}");
            assert_eq!(self.lent, *file, "{name}");
        }
    }
}

pub fn print(rows: &[Row]) {
    println!("\nTime per call that reads or writes a file:\n");
    println!(
        "| call and paper | bytes | library, ns | reference, ns | optimised, ns \
         | library / reference | library / optimised |"
    );
    println!("|---|--:|--:|--:|--:|--:|--:|");
    for row in rows {
        print_row("read", &row.workload, row.per_read);
        print_row("write", &row.workload, row.per_write);
    }
}

fn print_row(call: &str, workload: &FileWorkload, times: [f64; 3]) {
    let [library, reference, optimised] = times;
    println!(
        "| {call}, {} | {} | {library:.1} | {reference:.1} | {optimised:.1} | {:.2} | {:.2} |",
        workload.name,
        workload.file.len(),
        library / reference,
        library / optimised
    );
}
