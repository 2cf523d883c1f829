//! Expression lists, written one expression at a time; each call gives the new index.

#[derive(Clone, Debug, Default)]
pub struct Expressions {
    pub list: Vec<u16>,
}

impl Expressions {
    pub fn new() -> Expressions {
        Expressions::default()
    }

    pub fn push(&mut self, op: u16, p: u16, q: u16) -> u16 {
        self.list.extend([op, p, q]);
        (self.list.len() / 3 - 1) as u16
    }

    pub fn number(&mut self, p: u16) -> u16 {
        self.push(0, p, 0)
    }

    pub fn variable(&mut self, p: u16) -> u16 {
        self.push(1, p, 0)
    }

    pub fn sum(&mut self, p: u16, q: u16) -> u16 {
        self.push(2, p, q)
    }

    pub fn difference(&mut self, p: u16, q: u16) -> u16 {
        self.push(3, p, q)
    }

    pub fn product(&mut self, p: u16, q: u16) -> u16 {
        self.push(4, p, q)
    }

    pub fn both_bits(&mut self, p: u16, q: u16) -> u16 {
        self.push(5, p, q)
    }

    pub fn equal(&mut self, p: u16, q: u16) -> u16 {
        self.push(6, p, q)
    }

    pub fn below(&mut self, p: u16, q: u16) -> u16 {
        self.push(7, p, q)
    }
}
