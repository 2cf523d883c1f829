//! Times the player, the reference and the two optimised runs on the same programs, then the reading
//! and writing of files by the library, the reference and the optimised version, and prints tables in
//! Markdown. `docs/BENCHMARK.md` says how to run it and what it does not show.

mod files;
mod runs;

use pahmozil_tests::workloads;
use std::process::exit;

/// Other work on the machine only ever adds time, so that the least of several measurements is kept.
const ROUNDS: usize = 9;

fn main() {
    if cfg!(debug_assertions) {
        eprintln!("benchmark: build it with --release");
        exit(1);
    }
    let mut rows: Vec<runs::Row> = workloads::all().into_iter().map(runs::Row::new).collect();
    let mut papers: Vec<files::Row> = workloads::files()
        .into_iter()
        .map(files::Row::new)
        .collect();
    // A round goes over all the rows, so that a busy time of the machine does not fill one of them.
    for _ in 0..ROUNDS {
        rows.iter_mut().for_each(runs::Row::measure);
        papers.iter_mut().for_each(files::Row::measure);
    }
    runs::print(&rows);
    files::print(&papers);
    println!(
        "\nThe least of {ROUNDS} measurements each. Every run starts from the same state, copied \
         outside the timed part."
    );
}
