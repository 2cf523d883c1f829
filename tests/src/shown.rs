//! What `play` prints with `--climbs`, read back: the row of each cycle, and the climbs below it.

mod compare;
mod expected;
mod table;
mod turn;

pub use compare::compare;
pub use expected::{Expected, Worked};
use table::Columns;
pub use table::Row;
pub use turn::Turn;

/// A list that may be cut.
#[derive(Clone, Debug, Default, PartialEq, Eq)]
pub struct List<T> {
    pub items: Vec<T>,
    /// How many more there are.
    pub more: usize,
}

impl<T: PartialEq> List<T> {
    /// Whether it is this one, as far as it is printed.
    pub fn shows(&self, all: &[T]) -> bool {
        all.starts_with(&self.items) && all.len() == self.items.len() + self.more
    }
}

/// An entry of a cycle. One that waits has no turns.
#[derive(Debug)]
pub struct Entry {
    pub node: u16,
    pub completes: bool,
    pub statement: String,
    pub turns: Vec<Turn>,
}

#[derive(Debug, Default)]
pub struct Cycle {
    pub row: Row,
    pub entries: Vec<Entry>,
}

#[derive(Debug)]
pub struct Shown {
    /// The last has no entries: it is the state that is left, or that of the cycle that is refused.
    /// There is none where begin refuses.
    pub cycles: Vec<Cycle>,
    pub number: u16,
    /// Not said where begin refuses.
    pub worked: Option<u16>,
}

impl Shown {
    /// What stands above the table is not read.
    pub fn read(text: &str) -> Shown {
        let mut lines = text.lines().skip_while(|line| !line.starts_with("cycle"));
        let cycles = match lines.next().map(Columns::of) {
            Some(columns) => cycles_in(lines, columns.expect("heads of columns")),
            None => Vec::new(),
        };
        let mut lines = text.lines();
        let answer = lines.find_map(|line| line.strip_prefix("Number "));
        let answer = answer.and_then(answer_in);
        let (number, worked) = answer.unwrap_or_else(|| panic!("no answer in {text}"));
        Shown {
            cycles,
            number,
            worked,
        }
    }
}

/// The number, and the cycles worked.
fn answer_in(text: &str) -> Option<(u16, Option<u16>)> {
    let number = text.split([',', ':']).next()?.parse().ok()?;
    let worked = match text.split_once(" after ") {
        Some((_, rest)) => Some(rest.split(' ').next()?.parse().ok()?),
        None => None,
    };
    Some((number, worked))
}

/// Up to the empty line below the table.
fn cycles_in<'a>(lines: impl Iterator<Item = &'a str>, columns: Columns) -> Vec<Cycle> {
    let mut cycles = Vec::new();
    // The names of further variables.
    let of_heads = |line: &&str| line.trim_start().starts_with('v');
    let lines = lines.skip_while(of_heads);
    for line in lines.take_while(|line| !line.is_empty()) {
        let added = add_line(line, columns, &mut cycles);
        added.unwrap_or_else(|| panic!("this line says nothing that can be read: {line:?}"));
    }
    cycles
}

fn add_line(line: &str, columns: Columns, cycles: &mut Vec<Cycle>) -> Option<()> {
    if let Some(text) = line.trim_start().strip_prefix("leave ") {
        let entry = cycles.last_mut()?.entries.last_mut()?;
        entry.turns.push(Turn::read(text)?);
    } else if let Some(entry) = entry_in(line) {
        cycles.last_mut()?.entries.push(entry);
    } else {
        if columns.has_label(line) {
            cycles.push(Cycle::default());
        }
        // A row goes on before the climbs of its cycle.
        let cycle = cycles.last_mut().filter(|cycle| cycle.entries.is_empty())?;
        columns.read(line, &mut cycle.row)?;
    }
    Some(())
}

fn entry_in(line: &str) -> Option<Entry> {
    let (start, statement) = line.split_once(": ")?;
    let (node, what) = start.trim_start().split_once(' ')?;
    let completes = match what {
        "completes" => true,
        "waits" => false,
        _ => return None,
    };
    Some(Entry {
        node: node.parse().ok()?,
        completes,
        statement: statement.to_string(),
        turns: Vec::new(),
    })
}

/// Numbers with blanks between them.
fn numbers(text: &str) -> Option<Vec<u16>> {
    text.split_whitespace()
        .map(|word| word.parse().ok())
        .collect()
}
