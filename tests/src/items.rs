//! How often the item of an answer could be told from a wrong one, so that a comparison of items
//! cannot pass by meeting one fault at a time.

use crate::answer::WITH_ITEM;
use crate::program::Program;
use crate::reference::faults;
use crate::tally::Tally;

/// The fewest inputs of each sort that a call is compared on.
const LEAST: usize = 2_000;

pub struct Items {
    /// Two faults or more of the question: the lowest is not the highest.
    several: Tally,
    /// Another question has faults too, and the lowest of these is elsewhere.
    elsewhere: Tally,
    /// Too many or too few widths, of which the first is right and another is bad: it is not named.
    unnamed: Tally,
}

impl Items {
    pub fn new(call: &str) -> Items {
        Items {
            several: Tally::new(&format!("{call}, two faults or more")),
            elsewhere: Tally::new(&format!("{call}, faults of another question elsewhere")),
            unnamed: Tally::new(&format!("{call}, bad widths of a wrong number")),
        }
    }

    /// A program, and the number that it is answered with.
    pub fn meet(&mut self, program: &Program, number: u16) {
        if !WITH_ITEM.contains(&number) {
            return;
        }
        let found = faults(program, number);
        if number == 11 && program.widths.len() != program.vars as usize {
            if found.first().is_some_and(|&lowest| lowest > 0) {
                self.unnamed.meet(number);
            }
            return;
        }
        if found.len() > 1 {
            self.several.meet(number);
        }
        let lowest = |other: &u16| faults(program, *other).first().copied();
        let mut others = WITH_ITEM.iter().filter_map(lowest);
        if others.any(|other| other != found[0]) {
            self.elsewhere.meet(number);
        }
    }

    pub fn demand(&self) {
        self.demand_named();
        self.unnamed.demand(&[11], LEAST);
    }

    /// For reading, where there are always as many widths as variables. What is answered with 11 has
    /// passed 2, 3 and 4, and so has no fault of another question.
    pub fn demand_named(&self) {
        self.several.demand(&WITH_ITEM, LEAST);
        self.elsewhere.demand(&[2, 3, 4], LEAST);
    }
}
