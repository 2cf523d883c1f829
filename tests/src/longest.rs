//! The longest climbs met, by ranges of N, so that a test of climbs cannot pass by meeting short ones.

use crate::climb::Climb;
use crate::program::Program;
use std::ops::RangeInclusive;

/// The last N of each range.
const ENDS: [usize; 9] = [4, 8, 16, 32, 64, 128, 256, 512, 1024];

pub const RANGES: usize = ENDS.len();

pub fn range(at: usize) -> RangeInclusive<usize> {
    let before = if at == 0 { 0 } else { ENDS[at - 1] };
    before + 1..=ENDS[at]
}

#[derive(Default)]
struct Met {
    climbs: usize,
    turns: usize,
    /// N where this many turns were first met.
    nodes: usize,
}

pub struct Longest {
    name: String,
    by_range: [Met; RANGES],
}

impl Longest {
    pub fn new(name: &str) -> Longest {
        Longest {
            name: name.to_string(),
            by_range: Default::default(),
        }
    }

    pub fn meet(&mut self, program: &Program, climb: &Climb) {
        let nodes = program.node_count();
        let at = ENDS.iter().position(|&end| nodes <= end);
        let met = &mut self.by_range[at.expect("an accepted program has at most 1,024 nodes")];
        met.climbs += 1;
        if climb.turns.len() > met.turns {
            met.turns = climb.turns.len();
            met.nodes = nodes;
        }
    }

    pub fn print(&self) {
        for (at, met) in self.by_range.iter().enumerate() {
            if met.climbs == 0 {
                continue;
            }
            let (first, last) = range(at).into_inner();
            println!(
                "{}, N {first} to {last}: {} climbs, the longest {} turns, at N {}",
                self.name, met.climbs, met.turns, met.nodes
            );
        }
    }

    /// Prints, then demands climbs of so many turns in each range.
    pub fn demand(&self, least: [usize; RANGES]) {
        self.print();
        for (met, least) in self.by_range.iter().zip(least) {
            assert!(
                met.turns >= least,
                "{}: met only {} turns, not {least}",
                self.name,
                met.turns
            );
        }
    }
}
