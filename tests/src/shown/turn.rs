//! The line of a turn, without its first word.

use super::{numbers, List};
use crate::climb::{self, Entered};
use crate::program::{IF, PAR, SEQ, WHL};

/// A turn, with what is printed beside the node that is left and the child that is entered.
#[derive(Debug, PartialEq, Eq)]
pub struct Turn {
    pub turn: climb::Turn,
    /// Its kind and its number.
    pub parent: Option<(u16, u16)>,
    /// The leaves that are marked where a child stays.
    pub marked: List<u16>,
    /// How many threads of a PAR are still at work.
    pub threads: Option<u16>,
}

/// What a turn finds at the parent.
#[derive(Default)]
struct Found {
    entered: Option<Entered>,
    marked: List<u16>,
    threads: Option<u16>,
}

impl Turn {
    pub fn read(text: &str) -> Option<Turn> {
        let (left, found) = text.split_once(": ")?;
        let left = left.parse().ok()?;
        let (parent, found) = match found {
            "it has no parent" => (None, Found::default()),
            _ => under_parent(found)?,
        };
        let Found {
            entered,
            marked,
            threads,
        } = found;
        Some(Turn {
            turn: climb::Turn { left, entered },
            parent,
            marked,
            threads,
        })
    }
}

type Parent = Option<(u16, u16)>;

fn under_parent(text: &str) -> Option<(Parent, Found)> {
    let (kind, rest) = text.split_once(' ')?;
    let (node, found) = rest.split_once(' ')?;
    let (kind, found) = match (kind, found) {
        ("SEQ", "has no next child") => (SEQ, Found::default()),
        ("SEQ", _) => (SEQ, entering(found)?),
        ("IF", "is over") => (IF, Found::default()),
        ("WHL", "is false") => (WHL, Found::default()),
        ("WHL", _) => (WHL, entering(found.strip_prefix("is true, ")?)?),
        ("PAR", _) => (PAR, lowered(found)?),
        _ => return None,
    };
    Some((Some((kind, node.parse().ok()?)), found))
}

/// As in "enters 4: finishes" and "enters 8: stays, marks 9 10".
fn entering(text: &str) -> Option<Found> {
    let (child, what) = text.strip_prefix("enters ")?.split_once(": ")?;
    let child = child.parse().ok()?;
    let (stays, marked) = match what {
        "finishes" => (false, List::default()),
        _ => (true, leaves(what.strip_prefix("stays, marks ")?)?),
    };
    Some(Found {
        entered: Some(Entered { child, stays }),
        marked,
        threads: None,
    })
}

/// Their numbers, or how many they are.
fn leaves(text: &str) -> Option<List<u16>> {
    let mut list = List::default();
    match text.strip_suffix(" leaves") {
        Some(count) => list.more = count.parse().ok()?,
        None => list.items = numbers(text)?,
    }
    Some(list)
}

/// As in "has 1 thread still at work".
fn lowered(text: &str) -> Option<Found> {
    let (count, thing) = text.strip_prefix("has ")?.split_once(' ')?;
    let count = count.parse().ok()?;
    let expected = match count {
        1 => "thread still at work",
        _ => "threads still at work",
    };
    (thing == expected).then(|| Found {
        threads: Some(count),
        ..Found::default()
    })
}
