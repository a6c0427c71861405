//! A tiny assembler for the paper's order code.

/// A program's words so far.
#[derive(Clone, Default)]
pub struct Program {
    words: Vec<u16>,
}

/// The values of cc.
pub const LESS: u16 = 1;

/// The services.
pub const SEND: u16 = 1;
pub const RECEIVE: u16 = 2;
pub const INPUT: u16 = 3;
pub const OUTPUT: u16 = 4;

/// An order of two registers.
macro_rules! two_registers {
    ($($name:ident $op:literal),*) => {
        $(pub fn $name(&mut self, a: u16, b: u16) {
            self.order($op, a, b);
        })*
    };
}

/// An order with a second word and no fields.
macro_rules! with_address {
    ($($name:ident $op:literal),*) => {
        $(pub fn $name(&mut self, n: u16) {
            self.order($op, 0, 0);
            self.words.push(n);
        })*
    };
}

impl Program {
    two_registers!(copy 2, fetch 3, store 4, add 5, subtract 6, multiply 7, quotient 8);
    two_registers!(and 10, or 11, exclusive_or 12, compare 13);
    with_address!(jump 14, call 16);

    fn order(&mut self, op: u16, a: u16, b: u16) {
        self.words.push(256 * op + 16 * a + b);
    }

    pub fn load(&mut self, a: u16, n: u16) {
        self.order(1, a, 0);
        self.words.push(n);
    }

    pub fn jump_if(&mut self, cc: u16, n: u16) {
        self.order(15, cc, 0);
        self.words.push(n);
    }

    pub fn give_back(&mut self) {
        self.order(17, 0, 0);
    }

    pub fn service(&mut self, number: u16) {
        self.order(18, number, 0);
    }

    /// The address of the next order.
    pub fn here(&self) -> u16 {
        self.words.len() as u16
    }

    /// Sets the second word of the two-word order at an address.
    pub fn aim(&mut self, order: u16, n: u16) {
        self.words[usize::from(order) + 1] = n;
    }

    pub fn words(&self) -> &[u16] {
        &self.words
    }
}
