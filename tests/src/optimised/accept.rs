//! Questions 1 to 4 and 11 with yes or no, in one pass over each list.

use crate::file::Sizes;
use crate::program::{
    Program, ASG, DLY, IF, IN, MOST_CHANS, MOST_DEPTH, MOST_EXPRS, MOST_NODES, MOST_VARS,
    MOST_WIDTH, NO_PARENT, OUT, PAR, SEQ, WHL,
};

pub fn accepted(program: &Program) -> bool {
    let (exprs, cut_expr) = program.exprs.as_chunks::<3>();
    let (nodes, cut_node) = program.nodes.as_chunks::<5>();
    let whole = cut_expr.is_empty() && cut_node.is_empty();
    // Asked before they are cut to words.
    let few = exprs.len() <= MOST_EXPRS && nodes.len() <= MOST_NODES;
    whole
        && few
        && program.widths.len() == program.vars as usize
        && accepted_records(
            Sizes::of(program),
            exprs.iter().copied(),
            nodes.iter().copied(),
            program.widths.iter().copied(),
        )
}

/// The same of records, as many as the counts say, wherever they come from.
pub fn accepted_records(
    sizes: Sizes,
    exprs: impl Iterator<Item = [u16; 3]>,
    nodes: impl Iterator<Item = [u16; 5]>,
    mut widths: impl Iterator<Item = u16>,
) -> bool {
    within_limits(sizes)
        && expressions_right(exprs, sizes.vars)
        && nodes_right(nodes, sizes)
        && widths.all(|width| (1..=MOST_WIDTH).contains(&width))
}

fn within_limits(sizes: Sizes) -> bool {
    (1..=MOST_NODES as u16).contains(&sizes.nodes)
        && sizes.exprs <= MOST_EXPRS as u16
        && sizes.vars <= MOST_VARS
        && sizes.chans <= MOST_CHANS
}

fn expressions_right(exprs: impl Iterator<Item = [u16; 3]>, vars: u16) -> bool {
    let mut list = exprs.enumerate();
    list.all(|(e, [op, p, q])| match op {
        0 => q == 0,
        1 => p < vars && q == 0,
        2..=7 => p.max(q) < e as u16,
        _ => false,
    })
}

/// A node whose part of the list goes on.
#[derive(Clone, Copy)]
struct Open {
    node: u16,
    end: u16,
    kind: u16,
    children: u16,
}

/// As long as all ends are nested, these are the nodes above the next node, its parent last. A leaf
/// ends right after itself, and so it is never among them.
struct Above {
    /// The first is no node of the list: see `node_0`.
    open: [Open; MOST_DEPTH + 1],
    depth: usize,
}

impl Above {
    /// Above node 0 is taken to be a node with the word that node 0 has for a parent, whose part is
    /// the whole list. It has one child, as a WHL has.
    fn node_0(nodes: u16) -> Above {
        let first = Open {
            node: NO_PARENT,
            end: nodes,
            kind: WHL,
            children: 0,
        };
        Above {
            open: [first; MOST_DEPTH + 1],
            depth: 0,
        }
    }

    fn last(&mut self) -> &mut Open {
        &mut self.open[self.depth]
    }

    /// Takes the nodes away that end at i, and asks for their number of children.
    fn close(&mut self, i: u16) -> bool {
        while self.depth > 0 && self.last().end == i {
            if !children_right(self.last()) {
                return false;
            }
            self.depth -= 1;
        }
        true
    }

    fn add(&mut self, i: u16, kind: u16, parent: u16, end: u16) -> bool {
        let last = self.last();
        last.children += 1;
        let nested = parent == last.node && i < end && end <= last.end;
        if !nested || self.depth == MOST_DEPTH {
            return false;
        }
        if matches!(kind, ASG | IN | OUT | DLY) {
            return end == i + 1;
        }
        self.depth += 1;
        *self.last() = Open {
            node: i,
            end,
            kind,
            children: 0,
        };
        true
    }
}

fn children_right(node: &Open) -> bool {
    match node.kind {
        SEQ => node.children >= 1,
        PAR => node.children >= 2,
        IF => node.children == 1 || node.children == 2,
        _ => node.children == 1,
    }
}

fn nodes_right(nodes: impl Iterator<Item = [u16; 5]>, sizes: Sizes) -> bool {
    let bounds = bounds(sizes);
    let mut above = Above::node_0(sizes.nodes);
    let mut list = nodes.zip(0..);
    let right = list.all(|([kind, parent, end, a, b], i)| {
        let Some(&[below_a, below_b]) = bounds.get(kind as usize) else {
            return false;
        };
        above.close(i) && a < below_a && b < below_b && above.add(i, kind, parent, end)
    });
    right && above.close(sizes.nodes) && children_right(above.last())
}

/// For each kind what the last two words of a node are below: 1 where a word is not used, and 0 for
/// what is no kind.
fn bounds(sizes: Sizes) -> [[u16; 2]; 9] {
    let Sizes {
        exprs, vars, chans, ..
    } = sizes;
    let mut bounds = [[1, 1]; 9];
    bounds[0] = [0, 0];
    bounds[ASG as usize] = [vars, exprs];
    bounds[IN as usize] = [chans, vars];
    bounds[OUT as usize] = [chans, exprs];
    bounds[IF as usize] = [exprs, 1];
    bounds[WHL as usize] = [exprs, 1];
    bounds
}
