//! What a call answers, beside the cycles that it works and the lists that it writes.

/// The numbers that come with an item, in the order in which their questions are asked.
pub const WITH_ITEM: [u16; 4] = [2, 3, 4, 11];

#[derive(Clone, Copy, Debug, PartialEq, Eq)]
pub struct Answer {
    /// That of the first question that is broken, or 0.
    pub number: u16,
    /// The first expression, node or variable that breaks it, or 0.
    pub item: u16,
}

impl Answer {
    /// For a number that tells of no expression, node or variable.
    pub fn without_item(number: u16) -> Answer {
        Answer { number, item: 0 }
    }
}
