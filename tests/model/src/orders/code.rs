//! An order's first word: op, a and b.

use crate::image::service;
use crate::numbers::require;
use crate::orders::error;

/// The largest op that is known.
pub const LAST_OP: u16 = 18;

const REGISTERS: u16 = 8;
const LARGEST_CC: u16 = 2;

/// An order with its fields, registers by their numbers. A second word is no
/// part of it.
#[derive(Clone, Copy, Debug, PartialEq, Eq)]
pub enum Order {
    Load { to: usize },
    Copy { to: usize, from: usize },
    Fetch { to: usize, at: usize },
    Store { from: usize, at: usize },
    Reckon { how: Reckoning, to: usize, by: usize },
    Compare { left: usize, right: usize },
    Jump,
    JumpIf { cc: u16 },
    Call,
    Return,
    Service { number: u16 },
}

/// What ops 5 to 12 make of Ra and Rb.
#[derive(Clone, Copy, Debug, PartialEq, Eq)]
pub enum Reckoning {
    Sum,
    Difference,
    Product,
    Quotient,
    Remainder,
    And,
    Or,
    ExclusiveOr,
}

impl Order {
    /// The order that a first word stands for, or the error of its op, of its
    /// fields or of its service number.
    pub fn decode(word: u16) -> Result<Order, u16> {
        let fields = Fields { a: word / 16 % 16, b: word % 16 };
        match word / 256 {
            1 => fields.register().map(|to| Order::Load { to }),
            2 => fields.registers().map(|[to, from]| Order::Copy { to, from }),
            3 => fields.registers().map(|[to, at]| Order::Fetch { to, at }),
            4 => fields.registers().map(|[from, at]| Order::Store { from, at }),
            5 => fields.reckon(Reckoning::Sum),
            6 => fields.reckon(Reckoning::Difference),
            7 => fields.reckon(Reckoning::Product),
            8 => fields.reckon(Reckoning::Quotient),
            9 => fields.reckon(Reckoning::Remainder),
            10 => fields.reckon(Reckoning::And),
            11 => fields.reckon(Reckoning::Or),
            12 => fields.reckon(Reckoning::ExclusiveOr),
            13 => fields.registers().map(|[left, right]| Order::Compare { left, right }),
            14 => fields.none().map(|()| Order::Jump),
            15 => fields.condition().map(|cc| Order::JumpIf { cc }),
            16 => fields.none().map(|()| Order::Call),
            17 => fields.none().map(|()| Order::Return),
            LAST_OP => fields.service().map(|number| Order::Service { number }),
            _ => Err(error::ORDER),
        }
    }
}

/// The fields of a first word, each 0..15.
struct Fields {
    a: u16,
    b: u16,
}

impl Fields {
    /// Both fields as registers.
    fn registers(&self) -> Result<[usize; 2], u16> {
        require(self.a < REGISTERS && self.b < REGISTERS, error::ORDER)?;
        Ok([self.a, self.b].map(usize::from))
    }

    /// An order that reckons with two registers.
    fn reckon(&self, how: Reckoning) -> Result<Order, u16> {
        self.registers().map(|[to, by]| Order::Reckon { how, to, by })
    }

    /// The field a as a register, with b unused.
    fn register(&self) -> Result<usize, u16> {
        require(self.a < REGISTERS && self.b == 0, error::ORDER)?;
        Ok(usize::from(self.a))
    }

    /// Both fields unused.
    fn none(&self) -> Result<(), u16> {
        require(self.a == 0 && self.b == 0, error::ORDER)
    }

    /// The field a as a value of cc, with b unused.
    fn condition(&self) -> Result<u16, u16> {
        require(self.a <= LARGEST_CC && self.b == 0, error::ORDER)?;
        Ok(self.a)
    }

    /// The field a as a service number, with b unused.
    fn service(&self) -> Result<u16, u16> {
        require(self.b == 0, error::ORDER)?;
        require((service::SEND..=service::OUTPUT).contains(&self.a), error::SERVICE)?;
        Ok(self.a)
    }
}

impl Reckoning {
    /// The new word of Ra, or the error of a zero divisor.
    pub fn of(self, left: u16, right: u16) -> Result<u16, u16> {
        match self {
            Reckoning::Sum => Ok(left.wrapping_add(right)),
            Reckoning::Difference => Ok(left.wrapping_sub(right)),
            Reckoning::Product => Ok(left.wrapping_mul(right)),
            Reckoning::Quotient => left.checked_div(right).ok_or(error::DIVISOR),
            Reckoning::Remainder => left.checked_rem(right).ok_or(error::DIVISOR),
            Reckoning::And => Ok(left & right),
            Reckoning::Or => Ok(left | right),
            Reckoning::ExclusiveOr => Ok(left ^ right),
        }
    }
}

#[cfg(test)]
mod tests {
    use super::*;

    #[test]
    fn fields_are_read_from_the_low_byte() {
        assert_eq!(Order::decode(0x0170), Ok(Order::Load { to: 7 }));
        assert_eq!(Order::decode(0x0216), Ok(Order::Copy { to: 1, from: 6 }));
        assert_eq!(Order::decode(0x0F20), Ok(Order::JumpIf { cc: 2 }));
        assert_eq!(Order::decode(4656), Ok(Order::Service { number: 3 }));
        assert_eq!(Order::decode(4672), Ok(Order::Service { number: 4 }));
    }

    #[test]
    fn unknown_ops_and_bad_fields_are_2() {
        for word in [0x0000, 0x0001, 0x1300, 0x1310, 0x8145, 0xFF00, 0xFFFF] {
            assert_eq!(Order::decode(word), Err(2));
        }
        for word in [0x0180, 0x0101, 0x0280, 0x0208, 0x0D80, 0x0D08, 0x0E10, 0x0E01] {
            assert_eq!(Order::decode(word), Err(2));
        }
        for word in [0x0F30, 0x0F01, 0x1010, 0x1001, 0x1110, 0x1101, 0x1211] {
            assert_eq!(Order::decode(word), Err(2));
        }
    }

    #[test]
    fn a_service_number_is_tested_after_b() {
        assert_eq!(Order::decode(0x1200), Err(3));
        assert_eq!(Order::decode(0x1250), Err(3));
        assert_eq!(Order::decode(0x12F0), Err(3));
        assert_eq!(Order::decode(0x1201), Err(2));
        assert_eq!(Order::decode(0x12FF), Err(2));
    }

    /// 8 loads, 12 ops of 64 pairs of registers, 6 orders of jump, jump if,
    /// call and return, 4 services; 12 numbers of no service.
    #[test]
    fn so_many_first_words_are_good() {
        let count = |outcome: fn(Result<Order, u16>) -> bool| {
            (0..=u16::MAX).filter(|&word| outcome(Order::decode(word))).count()
        };
        assert_eq!(count(|order| order.is_ok()), 8 + 12 * 64 + 6 + 4);
        assert_eq!(count(|order| order == Err(3)), 12);
        assert_eq!(count(|order| order == Err(2)), 65536 - 786 - 12);
    }
}
