//! The nodes of an accepted program, with what entering and leaving each comes to written out, as
//! far as it is the same in all cycles.

use super::formulas::Formulas;
use crate::program::{Program, ASG, IF, IN, OUT, PAR, SEQ, WHL};

#[derive(Clone, Copy)]
pub enum Kind {
    Seq,
    Par,
    Asg,
    In,
    Out,
    If,
    Whl,
    Dly,
}

/// What entering a node comes to.
#[derive(Clone, Copy)]
pub enum Entry {
    /// This leaf is marked, and nothing else is done.
    Mark(u16),
    /// The node is finished, and nothing is done.
    Finish,
    /// It depends on values, or is more than one mark.
    Walk,
}

/// What leaving a node comes to. The IF above it, and each SEQ whose last child it is, are already
/// passed: they have nothing to do.
#[derive(Clone, Copy)]
pub enum After {
    Stop,
    /// The next leaf, which is certain.
    Mark(u16),
    /// The next child of a SEQ.
    Enter(u16),
    /// The WHL to be asked again.
    Again(u16),
    /// The PAR that has one thread less.
    Thread(u16),
}

#[derive(Clone, Copy)]
pub struct Node {
    pub kind: Kind,
    pub entry: Entry,
    pub after: After,
    /// One past the last node below; the next child of its parent, if there is one, stands there.
    pub end: u16,
    pub children: u16,
    pub a: u16,
    pub b: u16,
}

pub fn nodes(program: &Program, formulas: &Formulas, compiled: bool) -> Vec<Node> {
    let mut list = listed(program);
    if !compiled {
        return list;
    }
    // Children stand after their parent, and so do those that follow a node.
    for i in (0..list.len()).rev() {
        list[i].entry = entry(&list, formulas, i);
    }
    for i in (0..list.len()).rev() {
        list[i].after = settled(&list, formulas, list[i].after);
    }
    list
}

fn listed(program: &Program) -> Vec<Node> {
    let mut list: Vec<Node> = Vec::with_capacity(program.node_count());
    for (i, words) in program.nodes.chunks_exact(5).enumerate() {
        let (parent, end) = (words[1], words[2]);
        let mut after = After::Stop;
        if i > 0 {
            let above = &mut list[parent as usize];
            above.children += 1;
            after = after_child(above, parent, end);
        }
        let kind = kind(words[0]);
        list.push(Node {
            kind,
            entry: first_entry_of(kind, i as u16),
            after,
            end,
            children: 0,
            a: words[3],
            b: words[4],
        });
    }
    list
}

/// A leaf is marked; any other node is walked over.
fn first_entry_of(kind: Kind, i: u16) -> Entry {
    match kind {
        Kind::Asg | Kind::In | Kind::Out | Kind::Dly => Entry::Mark(i),
        Kind::Seq | Kind::Par | Kind::If | Kind::Whl => Entry::Walk,
    }
}

/// What is done after the child that ends there.
fn after_child(above: &Node, parent: u16, end: u16) -> After {
    match above.kind {
        Kind::Seq if end < above.end => After::Enter(end),
        Kind::Whl => After::Again(parent),
        Kind::Par => After::Thread(parent),
        _ => above.after,
    }
}

/// The entry of a node whose children have theirs.
fn entry(list: &[Node], formulas: &Formulas, i: usize) -> Entry {
    let node = list[i];
    let condition = || formulas.constant(node.a).map(|value| value != 0);
    match node.kind {
        Kind::Asg | Kind::In | Kind::Out | Kind::Dly => node.entry,
        Kind::Seq => first_entry(list, i + 1, node.end),
        Kind::Par => Entry::Walk,
        Kind::If => match condition() {
            Some(true) => list[i + 1].entry,
            Some(false) => first_entry(list, list[i + 1].end as usize, node.end),
            None => Entry::Walk,
        },
        Kind::Whl => match (condition(), list[i + 1].entry) {
            (Some(true), Entry::Mark(leaf)) => Entry::Mark(leaf),
            (Some(false), _) => Entry::Finish,
            _ => Entry::Walk,
        },
    }
}

/// The entry of the first child from there that does not finish at once.
fn first_entry(list: &[Node], from: usize, end: u16) -> Entry {
    let mut child = from;
    while child < end as usize {
        match list[child].entry {
            Entry::Finish => child = list[child].end as usize,
            other => return other,
        }
    }
    Entry::Finish
}

/// Passes what is certain. What follows in the list is settled already; what stands above is not, so
/// that a step up is followed here.
fn settled(list: &[Node], formulas: &Formulas, after: After) -> After {
    let mut after = after;
    loop {
        let (entered, finished) = match after {
            After::Enter(next) => (list[next as usize].entry, list[next as usize].after),
            After::Again(whl) => match formulas.constant(list[whl as usize].a) {
                Some(0) => (Entry::Finish, list[whl as usize].after),
                Some(_) => match list[whl as usize + 1].entry {
                    Entry::Mark(leaf) => (Entry::Mark(leaf), after),
                    _ => return after,
                },
                None => return after,
            },
            _ => return after,
        };
        match entered {
            Entry::Mark(leaf) => return After::Mark(leaf),
            Entry::Finish => after = finished,
            Entry::Walk => return after,
        }
    }
}

fn kind(word: u16) -> Kind {
    match word {
        SEQ => Kind::Seq,
        PAR => Kind::Par,
        ASG => Kind::Asg,
        IN => Kind::In,
        OUT => Kind::Out,
        IF => Kind::If,
        WHL => Kind::Whl,
        _ => Kind::Dly,
    }
}
