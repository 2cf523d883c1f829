//! The rows of the table, which may take several lines.

use super::{numbers, List};

/// A state before a cycle.
#[derive(Debug, Default)]
pub struct Row {
    /// The cycle, or the word for what is left after the last.
    pub label: String,
    pub values: Vec<u16>,
    pub active: List<u16>,
    /// The PARs at work, each with its count.
    pub threads: List<(u16, u16)>,
}

/// Where values, active statements and PARs start in a line.
#[derive(Clone, Copy)]
pub struct Columns {
    values: usize,
    active: usize,
    threads: usize,
}

/// What a line has in these columns.
fn part(line: &str, from: usize, to: usize) -> &str {
    let end = line.len();
    line[from.min(end)..to.min(end)].trim()
}

impl Columns {
    pub fn of(heads: &str) -> Option<Columns> {
        Some(Columns {
            values: "cycle".len(),
            active: heads.find("active")?,
            threads: heads.find("threads")?,
        })
    }

    /// Whether a row starts in this line.
    pub fn has_label(self, line: &str) -> bool {
        !part(line, 0, self.values).is_empty()
    }

    pub fn read(self, line: &str, row: &mut Row) -> Option<()> {
        let Columns {
            values,
            active,
            threads,
        } = self;
        row.label.push_str(part(line, 0, values));
        row.values.extend(numbers(part(line, values, active))?);
        read_list(part(line, active, threads), numbers, &mut row.active)?;
        read_list(part(line, threads, line.len()), pars, &mut row.threads)
    }
}

/// What a line has of a list: items, a dash where there are none, or how many more there are.
fn read_list<T>(
    text: &str,
    items: impl Fn(&str) -> Option<Vec<T>>,
    list: &mut List<T>,
) -> Option<()> {
    let more = text
        .strip_prefix("and ")
        .and_then(|rest| rest.strip_suffix(" more"));
    match (text, more) {
        ("" | "-", _) => {}
        (_, Some(more)) => list.more = more.parse().ok()?,
        _ => list.items.extend(items(text)?),
    }
    Some(())
}

/// As in "PAR 0: 3, PAR 8: 2".
fn pars(text: &str) -> Option<Vec<(u16, u16)>> {
    let par = |text: &str| {
        let (node, count) = text.strip_prefix("PAR ")?.split_once(": ")?;
        Some((node.parse().ok()?, count.parse().ok()?))
    };
    text.split(", ").map(par).collect()
}
