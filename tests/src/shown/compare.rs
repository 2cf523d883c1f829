//! What is printed for a paper and what the reference makes of it, which must agree.

use super::expected::{expected, Expected, Worked};
use super::{Cycle, Entry, Row, Shown, Turn};
use crate::climb::{Climb, Entered};
use crate::play::TextPaper;
use crate::program::{Program, State, ASG, IN, OUT, PAR};
use std::thread;

/// Told where a comparison fails.
struct Case<'a> {
    paper: &'a TextPaper,
    printed: &'a str,
}

impl Drop for Case<'_> {
    fn drop(&mut self) {
        if thread::panicking() {
            println!("{}{}", self.paper.text(), self.printed);
        }
    }
}

/// The rows and the climbs of all cycles, up to the last or to one that is refused, and the answer.
pub fn compare(paper: &TextPaper, printed: &str) -> (Shown, Expected) {
    let _case = Case { paper, printed };
    let shown = Shown::read(printed);
    let expected = expected(paper);
    assert_eq!(shown.number, expected.number);
    match (shown.cycles.split_last(), &expected.last) {
        (None, None) => assert_eq!(shown.worked, None),
        (Some((last, cycles)), Some(state)) => {
            assert_eq!(shown.worked, Some(cycles.len() as u16));
            hold_cycles(&paper.program, cycles, &expected.cycles);
            hold_last(last, &last_label(&expected), state);
        }
        (None, Some(_)) => panic!("no row, though begin does not refuse"),
        (Some(_), None) => panic!("rows, though begin refuses"),
    }
    (shown, expected)
}

fn hold_cycles(program: &Program, cycles: &[Cycle], worked: &[Worked]) {
    assert_eq!(cycles.len(), worked.len());
    for (at, (cycle, worked)) in cycles.iter().zip(worked).enumerate() {
        let label = at.to_string();
        hold_row(&cycle.row, &label, &worked.before, &worked.entries);
        hold_entries(program, &cycle.entries, worked);
    }
}

fn last_label(expected: &Expected) -> String {
    match expected.number {
        0 => "after".to_string(),
        _ => expected.cycles.len().to_string(),
    }
}

fn hold_last(last: &Cycle, label: &str, state: &State) {
    hold_row(&last.row, label, state, &state.entries());
    assert!(last.entries.is_empty(), "{last:?}");
}

fn hold_row(row: &Row, label: &str, state: &State, active: &[u16]) {
    assert_eq!(row.label, label);
    assert_eq!(row.values, state.values, "{row:?}");
    assert!(row.active.shows(active), "{row:?}, not {active:?}");
    let counts = state.counts.iter().enumerate();
    let pars: Vec<(u16, u16)> = counts
        .filter(|(_, &count)| count > 0)
        .map(|(i, &count)| (i as u16, count))
        .collect();
    assert!(row.threads.shows(&pars), "{row:?}, not {pars:?}");
}

/// The entries, and which of them wait and climb; then what else their lines say.
fn hold_entries(program: &Program, entries: &[Entry], worked: &Worked) {
    let nodes: Vec<u16> = entries.iter().map(|entry| entry.node).collect();
    assert_eq!(nodes, worked.entries);
    assert_eq!(climbs(entries), worked.climbs);
    let mut counts = worked.before.counts.clone();
    for entry in entries {
        assert!(entry.completes || entry.turns.is_empty(), "{entry:?}");
        let start = start_of_statement(program, entry.node);
        assert!(entry.statement.starts_with(&start), "{entry:?}");
        hold_turns(program, &entry.turns, &worked.after, &mut counts);
    }
}

/// As the reference gives them: the nodes left and the children entered.
fn climbs(entries: &[Entry]) -> Vec<Climb> {
    let complete = entries.iter().filter(|entry| entry.completes);
    let climb = |entry: &Entry| Climb {
        entry: entry.node,
        turns: entry.turns.iter().map(|turn| turn.turn).collect(),
    };
    complete.map(climb).collect()
}

/// As a statement is printed, up to its expression.
fn start_of_statement(program: &Program, node: u16) -> String {
    let i = node as usize;
    let (a, b) = (program.a(i), program.b(i));
    match program.kind(i) {
        ASG => format!("v{a} := "),
        IN => format!("IN c{a} v{b}"),
        OUT => format!("OUT c{a} "),
        _ => "DLY".to_string(),
    }
}

/// What turns find beside the child that they enter. The counts are those before the turns, and go down
/// with them: a PAR that is entered again in a cycle is not lowered again in it, since none of its
/// statements is an entry any more.
fn hold_turns(program: &Program, turns: &[Turn], after: &State, counts: &mut [u16]) {
    for turn in turns {
        let left = turn.turn.left as usize;
        let parent = (left > 0).then(|| program.parent_word(left));
        let parent = parent.map(|i| (program.kind(i as usize), i));
        assert_eq!(turn.parent, parent, "{turn:?}");
        let par = parent.filter(|&(kind, _)| kind == PAR);
        let threads = par.map(|(_, i)| lowered(&mut counts[i as usize]));
        assert_eq!(turn.threads, threads, "{turn:?}");
        let marked = marked(program, turn, after);
        assert!(turn.marked.shows(&marked), "{turn:?}, not {marked:?}");
    }
}

fn lowered(count: &mut u16) -> u16 {
    *count -= 1;
    *count
}

/// The leaves that are marked where a turn enters a child that stays. No entry that is still to come is
/// below the child, so that they are the leaves below it that are marked after the cycle.
fn marked(program: &Program, turn: &Turn, after: &State) -> Vec<u16> {
    let Some(Entered { child, stays: true }) = turn.turn.entered else {
        return Vec::new();
    };
    let below = child..program.end(child as usize) as u16;
    let marked = after.entries().into_iter();
    marked.filter(|leaf| below.contains(leaf)).collect()
}
