//! Expressions that are always worked together. A part has a head, which a node or several parts
//! read, and all the expressions that only this part reads. One look at the head then tells whether
//! the whole part is worked, and no operand inside of it needs a look of its own.

use crate::program::{Program, ASG, IF, OUT, WHL};

/// The owner of an expression that no node needs.
pub const NONE: u16 = 65535;

/// For each expression the head of the part that it belongs to.
pub fn owners(program: &Program) -> Vec<u16> {
    let mut owners = vec![NONE; program.expr_count()];
    for i in 0..program.node_count() {
        let read = match program.kind(i) {
            ASG | OUT => program.b(i),
            IF | WHL => program.a(i),
            _ => continue,
        };
        owners[read as usize] = read;
    }
    // Users stand above their operands, so that an owner is settled when its turn comes.
    for e in (0..program.expr_count()).rev() {
        let owner = owners[e];
        if owner != NONE && program.op(e) >= 2 {
            own(&mut owners, owner, program.p(e));
            own(&mut owners, owner, program.q(e));
        }
    }
    owners
}

/// An operand that has another owner already is shared, and so it heads a part.
fn own(owners: &mut [u16], owner: u16, operand: u16) {
    let entry = &mut owners[operand as usize];
    if *entry == NONE {
        *entry = owner;
    } else if *entry != owner {
        *entry = operand;
    }
}
