//! The runs of a program: the player, the reference and the two optimised ones.

use pahmozil_tests::answer::Answer;
use pahmozil_tests::optimised;
use pahmozil_tests::player;
use pahmozil_tests::program::{Program, State};
use pahmozil_tests::reference;
use pahmozil_tests::stopwatch::measure;
use pahmozil_tests::workloads::Workload;
use std::hint::black_box;

/// Gives the answer and the cycles worked, and writes the state in place.
type Run = fn(&Program, &mut State, &[u16], u16) -> (Answer, u16);

const RUNS: [Run; 4] = [
    player::run,
    by_reference,
    optimised::run,
    optimised::run_compiled,
];

/// A call of one cycle or none is short, so that several are timed together, each on a state of its
/// own.
const SHORT_CALLS: usize = 16;

fn by_reference(
    program: &Program,
    state: &mut State,
    schedule: &[u16],
    cycles: u16,
) -> (Answer, u16) {
    let (answer, worked, after) = reference::run(program, state, schedule, cycles);
    *state = after;
    (answer, worked)
}

/// A workload and its least times in nanoseconds, in the order of the runs.
pub struct Row {
    workload: Workload,
    schedule: Vec<u16>,
    per_cycle: [f64; 4],
    per_call_of_one: [f64; 4],
    per_call_of_none: [f64; 4],
}

impl Row {
    pub fn new(workload: Workload) -> Row {
        let Workload {
            program,
            start,
            cycles,
            ..
        } = &workload;
        let schedule = optimised::ascending_schedule(program, start, *cycles);
        demand_agreement(&workload, &schedule, *cycles, workload.answer);
        let none = Answer::without_item(0);
        demand_agreement(&workload, &schedule, 1, (none, 1));
        demand_agreement(&workload, &schedule, 0, (none, 0));
        Row {
            workload,
            schedule,
            per_cycle: [f64::INFINITY; 4],
            per_call_of_one: [f64::INFINITY; 4],
            per_call_of_none: [f64::INFINITY; 4],
        }
    }

    /// One measurement of each run.
    pub fn measure(&mut self) {
        let Workload { cycles, answer, .. } = self.workload;
        for (at, run) in RUNS.into_iter().enumerate() {
            let whole = self.time(run, 1, cycles) / answer.1 as f64;
            self.per_cycle[at] = self.per_cycle[at].min(whole);
            let of_one = self.time(run, SHORT_CALLS, 1);
            self.per_call_of_one[at] = self.per_call_of_one[at].min(of_one);
            let of_none = self.time(run, SHORT_CALLS, 0);
            self.per_call_of_none[at] = self.per_call_of_none[at].min(of_none);
        }
    }

    /// Nanoseconds per call, of so many calls that are timed together.
    fn time(&self, run: Run, calls: usize, cycles: u16) -> f64 {
        let Workload { program, start, .. } = &self.workload;
        let time = measure(start, calls, |states| {
            for state in states {
                black_box(run(
                    black_box(program),
                    state,
                    black_box(&self.schedule),
                    cycles,
                ));
            }
        });
        time / calls as f64
    }
}

/// Times of runs with different answers would not be comparable.
fn demand_agreement(workload: &Workload, schedule: &[u16], cycles: u16, answer: (Answer, u16)) {
    let [first, others @ ..] = RUNS.map(|run| {
        let mut state = workload.start.clone();
        let answer = run(&workload.program, &mut state, schedule, cycles);
        (answer, state)
    });
    assert_eq!(first.0, answer, "{}: not the answer", workload.name);
    assert!(
        others.iter().all(|other| *other == first),
        "{}: different answers",
        workload.name
    );
}

pub fn print(rows: &[Row]) {
    println!("Time per cycle, the whole call divided by the cycles that it works:\n");
    print_header("cycles per call");
    for row in rows {
        let worked = row.workload.answer.1;
        print_row(&row.workload, worked as usize, row.per_cycle);
    }
    println!("\nTime per call that asks for one cycle:\n");
    print_header("nodes");
    for row in rows {
        let nodes = row.workload.program.node_count();
        print_row(&row.workload, nodes, row.per_call_of_one);
    }
    println!("\nTime per call that asks for no cycle:\n");
    print_header("nodes");
    for row in rows {
        let nodes = row.workload.program.node_count();
        print_row(&row.workload, nodes, row.per_call_of_none);
    }
}

fn print_header(second: &str) {
    println!(
        "| shape | {second} | player, ns | reference, ns | optimised, ns | compiled, ns \
         | player / reference | player / optimised | player / compiled |"
    );
    println!("|---|--:|--:|--:|--:|--:|--:|--:|--:|");
}

fn print_row(workload: &Workload, second: usize, times: [f64; 4]) {
    let [player, reference, optimised, compiled] = times;
    println!(
        "| {} | {second} | {player:.1} | {reference:.1} | {optimised:.1} | {compiled:.1} \
         | {:.2} | {:.2} | {:.2} |",
        workload.name,
        player / reference,
        player / optimised,
        player / compiled
    );
}
