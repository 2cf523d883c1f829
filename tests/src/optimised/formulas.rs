//! Values of expressions on demand. What takes more than one step is worked at most once for the same
//! values of the variables.

use super::arithmetic::Op;

/// How the value of an expression is found.
#[derive(Clone, Copy)]
pub enum Read {
    /// It stands in a slot: a variable, or what is the same for all time.
    Slot(u16),
    /// One step on two such slots, which is as quick as to look whether it is worked.
    Step(Op, u16, u16),
    /// It stands in a slot once a part is worked.
    Part { part: u16, slot: u16 },
}

#[derive(Clone, Copy)]
pub struct Step {
    pub op: Op,
    pub left: u16,
    pub right: u16,
    pub to: u16,
}

/// A run of steps, and a run of the parts that these read.
pub struct Part {
    pub first_step: u16,
    pub end_of_steps: u16,
    pub first_need: u16,
    pub end_of_needs: u16,
    pub worked_at: u32,
}

pub struct Formulas {
    /// The variables first, then a slot for each expression.
    pub slots: Vec<u16>,
    pub variable_count: usize,
    pub reads: Vec<Read>,
    pub parts: Vec<Part>,
    pub steps: Vec<Step>,
    pub needs: Vec<u16>,
    /// Goes up when a variable changes; a part worked at an earlier time is worked again.
    pub now: u32,
}

impl Formulas {
    pub fn variables(&self) -> &[u16] {
        &self.slots[..self.variable_count]
    }

    /// Whoever changes one has to call `forget`.
    pub fn variables_mut(&mut self) -> &mut [u16] {
        &mut self.slots[..self.variable_count]
    }

    pub fn forget(&mut self) {
        self.now += 1;
    }

    /// The value, if it is the same for all time.
    pub fn constant(&self, e: u16) -> Option<u16> {
        match self.reads[e as usize] {
            Read::Slot(slot) if slot as usize >= self.variable_count => {
                Some(self.slots[slot as usize])
            }
            _ => None,
        }
    }

    #[inline]
    pub fn value(&mut self, e: u16) -> u16 {
        match self.reads[e as usize] {
            Read::Slot(slot) => self.slots[slot as usize],
            Read::Step(op, left, right) => {
                op.apply(self.slots[left as usize], self.slots[right as usize])
            }
            Read::Part { part, slot } => {
                if self.parts[part as usize].worked_at != self.now {
                    self.work(part as usize);
                }
                self.slots[slot as usize]
            }
        }
    }

    fn work(&mut self, part: usize) {
        let Part {
            first_step,
            end_of_steps,
            first_need,
            end_of_needs,
            ..
        } = self.parts[part];
        for at in first_need..end_of_needs {
            let need = self.needs[at as usize] as usize;
            if self.parts[need].worked_at != self.now {
                self.work(need);
            }
        }
        work_steps(
            &self.steps[first_step as usize..end_of_steps as usize],
            &mut self.slots,
        );
        self.parts[part].worked_at = self.now;
    }
}

/// A step often reads the one before it, whose result is at hand before it can be read back.
fn work_steps(steps: &[Step], slots: &mut [u16]) {
    let (mut last_to, mut last) = (u16::MAX, 0);
    for step in steps {
        let read = |slot: u16| {
            if slot == last_to {
                last
            } else {
                slots[slot as usize]
            }
        };
        let value = step.op.apply(read(step.left), read(step.right));
        slots[step.to as usize] = value;
        (last_to, last) = (step.to, value);
    }
}
