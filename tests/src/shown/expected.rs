//! A paper as the reference works it, cycle by cycle.

use crate::climb::Climb;
use crate::play::TextPaper;
use crate::program::State;
use crate::reference;
use std::mem;

/// A cycle that is worked.
pub struct Worked {
    pub before: State,
    pub entries: Vec<u16>,
    pub climbs: Vec<Climb>,
    pub after: State,
}

pub struct Expected {
    pub number: u16,
    pub cycles: Vec<Worked>,
    /// What is left, which is the state before a cycle that is refused. There is none where begin
    /// refuses.
    pub last: Option<State>,
}

pub fn expected(paper: &TextPaper) -> Expected {
    match reference::begun(&paper.program, &paper.values) {
        Ok(start) => run(paper, start),
        Err(number) => Expected {
            number,
            cycles: Vec::new(),
            last: None,
        },
    }
}

fn run(paper: &TextPaper, start: State) -> Expected {
    let mut order = paper.order.clone();
    let (mut number, mut cycles, mut last) = (0, Vec::new(), start);
    while number == 0 && cycles.len() < paper.cycles as usize && last.marks.contains(&1) {
        let entries = order.entries(&last);
        match reference::climbs(&paper.program, &last, &entries) {
            Ok((climbs, after)) => cycles.push(Worked {
                before: mem::replace(&mut last, after.clone()),
                entries,
                climbs,
                after,
            }),
            Err(refused) => number = refused,
        }
    }
    Expected {
        number,
        cycles,
        last: Some(last),
    }
}
