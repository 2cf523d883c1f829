//! From the expression list to slots and parts.

use super::arithmetic::Op;
use super::formulas::{Formulas, Part, Read, Step};
use super::parts::{owners, NONE};
use crate::program::Program;

pub fn formulas(program: &Program, values: &[u16]) -> Formulas {
    let count = program.expr_count();
    let mut formulas = Formulas {
        slots: Vec::with_capacity(values.len() + count),
        variable_count: values.len(),
        reads: Vec::with_capacity(count),
        parts: Vec::with_capacity(count),
        steps: Vec::with_capacity(count),
        needs: Vec::with_capacity(2 * count),
        now: 1,
    };
    formulas.slots.extend_from_slice(values);
    let constants = place(&mut formulas, program);
    for steps in ordered(program, &constants).chunk_by(|one, other| one.0 == other.0) {
        add_part(&mut formulas, program, steps);
    }
    shorten(&mut formulas);
    formulas
}

/// Gives each expression its slot, and tells which have one value for all time: those are worked
/// here. The slot of a variable is the variable's own.
fn place(formulas: &mut Formulas, program: &Program) -> Vec<bool> {
    let mut constants = Vec::with_capacity(program.expr_count());
    for words in program.exprs.chunks_exact(3) {
        let (op, p, q) = (words[0], words[1], words[2]);
        let constant = op == 0 || op >= 2 && constants[p as usize] && constants[q as usize];
        let own = formulas.slots.len() as u16;
        let first = match op {
            0 => p,
            _ if constant => Op::of(op).apply(operand(formulas, p), operand(formulas, q)),
            _ => 0,
        };
        formulas.slots.push(first);
        formulas
            .reads
            .push(Read::Slot(if op == 1 { p } else { own }));
        constants.push(constant);
    }
    constants
}

fn operand(formulas: &Formulas, e: u16) -> u16 {
    formulas.slots[slot(formulas, e) as usize]
}

fn slot(formulas: &Formulas, e: u16) -> u16 {
    match formulas.reads[e as usize] {
        Read::Slot(slot) | Read::Part { slot, .. } => slot,
        Read::Step(..) => unreachable!("given only when all parts are known"),
    }
}

/// Owner and index of each expression that takes work, part after part. A part reads parts with
/// lower heads only, so these stand before it.
fn ordered(program: &Program, constants: &[bool]) -> Vec<(u16, u16)> {
    let owners = owners(program);
    let takes_work = |e: &usize| program.op(*e) >= 2 && !constants[*e] && owners[*e] != NONE;
    let mut list: Vec<(u16, u16)> = (0..program.expr_count())
        .filter(takes_work)
        .map(|e| (owners[e], e as u16))
        .collect();
    list.sort_unstable();
    list
}

fn add_part(formulas: &mut Formulas, program: &Program, steps: &[(u16, u16)]) {
    let first_step = formulas.steps.len() as u16;
    let first_need = formulas.needs.len() as u16;
    for &(_, e) in steps {
        add_step(formulas, program, e);
    }
    let head = steps[0].0;
    formulas.reads[head as usize] = Read::Part {
        part: formulas.parts.len() as u16,
        slot: slot(formulas, head),
    };
    formulas.parts.push(Part {
        first_step,
        end_of_steps: formulas.steps.len() as u16,
        first_need,
        end_of_needs: formulas.needs.len() as u16,
        worked_at: 0,
    });
}

fn add_step(formulas: &mut Formulas, program: &Program, e: u16) {
    let operands = [program.p(e as usize), program.q(e as usize)];
    for operand in operands {
        // Only the head of a finished part has a part here.
        if let Read::Part { part, .. } = formulas.reads[operand as usize] {
            formulas.needs.push(part);
        }
    }
    let [left, right] = operands.map(|operand| slot(formulas, operand));
    formulas.steps.push(Step {
        op: Op::of(program.op(e as usize)),
        left,
        right,
        to: slot(formulas, e),
    });
}

/// Parts of one step that need no other part are read without a look whether they are worked.
fn shorten(formulas: &mut Formulas) {
    for read in &mut formulas.reads {
        if let Read::Part { part, .. } = *read {
            let part = &formulas.parts[part as usize];
            let one_step = part.first_step + 1 == part.end_of_steps;
            if one_step && part.first_need == part.end_of_needs {
                let step = formulas.steps[part.first_step as usize];
                *read = Read::Step(step.op, step.left, step.right);
            }
        }
    }
}
