//! The instructions: their decoding, their use of the stack and their arithmetic.

use super::faults::{Fault, Rules};
use super::refusal::{require, Refusal};
use super::tables::InstructionRow;

#[derive(Clone, Copy, PartialEq, Eq)]
pub enum Op {
    Push(i16),
    Load(u8),
    Store(u8),
    Binary(Operator),
    Not,
    Raise(u8),
    Send { event: u8, state: u8 },
}

#[derive(Clone, Copy, PartialEq, Eq)]
pub enum Operator {
    Add,
    Subtract,
    Multiply,
    Quotient,
    Remainder,
    Less,
    Equal,
}

impl Op {
    /// None for an op over 12, for an operand that the op lacks and yet is not 0, and for a state no byte can name.
    pub fn decode(row: &InstructionRow, rules: Rules) -> Option<Op> {
        Some(match (row.op, row.a, row.b) {
            (0, a, value) if a == 0 || rules.wrong(Fault::PushOperandUntested) => Op::Push(value),
            (1, variable, 0) => Op::Load(variable),
            (2, variable, 0) => Op::Store(variable),
            (3, 0, 0) => Op::Binary(Operator::Add),
            (4, 0, 0) => Op::Binary(Operator::Subtract),
            (5, 0, 0) => Op::Binary(Operator::Multiply),
            (6, 0, 0) => Op::Binary(Operator::Quotient),
            (7, 0, 0) => Op::Binary(Operator::Remainder),
            (8, 0, 0) => Op::Binary(Operator::Less),
            (9, 0, 0) => Op::Binary(Operator::Equal),
            (10, 0, 0) => Op::Not,
            (11, output, 0) => Op::Raise(output),
            (12, event, state) => Op::Send { event, state: u8::try_from(state).ok()? },
            _ => return None,
        })
    }

    /// How many values the op takes from the stack and how many it then puts there.
    pub fn stack_use(self) -> (usize, usize) {
        match self {
            Op::Push(_) | Op::Load(_) => (0, 1),
            Op::Store(_) => (1, 0),
            Op::Binary(_) => (2, 1),
            Op::Not => (1, 1),
            Op::Raise(_) | Op::Send { .. } => (0, 0),
        }
    }
}

impl Operator {
    /// In 64 bits every result exists but those of a divisor 0, so that one test at the end settles the 32 bits.
    pub fn apply(self, lower: i32, top: i32, rules: Rules) -> Result<i32, Refusal> {
        let (lower, top) = (i64::from(lower), i64::from(top));
        let result = match self {
            Operator::Add => lower + top,
            Operator::Subtract => lower - top,
            Operator::Multiply => lower * top,
            Operator::Quotient => quotient(lower, top, rules)?,
            Operator::Remainder => remainder(lower, top, rules)?,
            Operator::Less => i64::from(lower < top || lower == top && rules.wrong(Fault::LessOrEqual)),
            Operator::Equal => i64::from(lower == top),
        };
        if rules.wrong(Fault::ArithmeticWraps) {
            return Ok(result as i32);
        }
        i32::try_from(result).map_err(|_| Refusal::Arithmetic)
    }
}

fn quotient(lower: i64, top: i64, rules: Rules) -> Result<i64, Refusal> {
    require(top != 0, Refusal::Arithmetic)?;
    if rules.wrong(Fault::QuotientLeavesPositive) {
        return Ok(lower.div_euclid(top));
    }
    Ok(lower / top)
}

fn remainder(lower: i64, top: i64, rules: Rules) -> Result<i64, Refusal> {
    require(top != 0, Refusal::Arithmetic)?;
    require(top != -1 || !rules.wrong(Fault::RemainderByMinusOneRefused), Refusal::Arithmetic)?;
    if rules.wrong(Fault::RemainderOfDivisorsSign) {
        return Ok((lower % top + top) % top);
    }
    Ok(lower % top)
}

#[cfg(test)]
mod tests {
    use super::*;

    const PAPER: Rules = Rules { fault: None };

    #[test]
    fn the_edges_of_32_bits() {
        let outside = Err(Refusal::Arithmetic);
        assert_eq!(Operator::Quotient.apply(i32::MIN, -1, PAPER), outside);
        assert_eq!(Operator::Remainder.apply(i32::MIN, -1, PAPER), Ok(0));
        assert_eq!(Operator::Add.apply(i32::MAX, 1, PAPER), outside);
        assert_eq!(Operator::Subtract.apply(i32::MIN, 1, PAPER), outside);
        assert_eq!(Operator::Multiply.apply(65_536, 32_768, PAPER), outside);
        assert_eq!(Operator::Multiply.apply(-65_536, 32_768, PAPER), Ok(i32::MIN));
        assert_eq!(Operator::Quotient.apply(1, 0, PAPER), outside);
        assert_eq!(Operator::Remainder.apply(1, 0, PAPER), outside);
    }

    #[test]
    fn lower_then_top_and_signs() {
        assert_eq!(Operator::Subtract.apply(7, 9, PAPER), Ok(-2));
        assert_eq!(Operator::Quotient.apply(-7, 2, PAPER), Ok(-3));
        assert_eq!(Operator::Remainder.apply(-7, 2, PAPER), Ok(-1));
        assert_eq!(Operator::Remainder.apply(7, -2, PAPER), Ok(1));
        assert_eq!(Operator::Less.apply(1, 2, PAPER), Ok(1));
        assert_eq!(Operator::Less.apply(2, 2, PAPER), Ok(0));
        assert_eq!(Operator::Equal.apply(2, 2, PAPER), Ok(1));
    }
}
