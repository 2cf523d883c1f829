//! Climbs: what follows when a leaf is over. Each turn leaves one node.

/// The climb of an entry that completes.
#[derive(Clone, Debug, PartialEq, Eq)]
pub struct Climb {
    pub entry: u16,
    /// The first leaves the entry.
    pub turns: Vec<Turn>,
}

#[derive(Clone, Copy, Debug, PartialEq, Eq)]
pub struct Turn {
    /// The node that is left.
    pub left: u16,
    /// The next child of a SEQ, or the child of a WHL, which is entered again.
    pub entered: Option<Entered>,
}

#[derive(Clone, Copy, Debug, PartialEq, Eq)]
pub struct Entered {
    pub child: u16,
    /// Then the climb is over. Else the child finishes, and the next turn leaves it.
    pub stays: bool,
}
