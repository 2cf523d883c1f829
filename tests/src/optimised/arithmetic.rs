//! The ops that have two operands.

#[derive(Clone, Copy)]
pub enum Op {
    Sum,
    Difference,
    Product,
    BothBits,
    Equal,
    Below,
}

impl Op {
    pub fn of(word: u16) -> Op {
        match word {
            2 => Op::Sum,
            3 => Op::Difference,
            4 => Op::Product,
            5 => Op::BothBits,
            6 => Op::Equal,
            _ => Op::Below,
        }
    }

    #[inline]
    pub fn apply(self, left: u16, right: u16) -> u16 {
        match self {
            Op::Sum => left.wrapping_add(right),
            Op::Difference => left.wrapping_sub(right),
            Op::Product => left.wrapping_mul(right),
            Op::BothBits => left & right,
            Op::Equal => (left == right) as u16,
            Op::Below => (left < right) as u16,
        }
    }
}
