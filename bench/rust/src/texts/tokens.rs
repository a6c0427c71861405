//! The tokens of a text, one after another.

/// A token, with what it means by itself.
#[derive(Clone, Copy)]
pub enum Token<'a> {
    /// A number, none where it is over 65535.
    Number(Option<u16>),
    Name(&'a [u8]),
    Register(u16),
    /// An order name: its operands, and its first word without registers.
    Order(Operands, u16),
    Mark(u8),
    /// The line is at its end, or at its comment.
    End,
    /// A kept word of another edition, or a byte that begins no token.
    Outside,
}

/// What stands behind an order name.
#[derive(Clone, Copy)]
pub enum Operands {
    Nothing,
    Sum,
    /// A register and a sum.
    Register,
    /// Two registers.
    Registers,
}

/// What is left of a text.
#[derive(Clone, Copy)]
pub struct Tokens<'a> {
    rest: &'a [u8],
}

impl<'a> Tokens<'a> {
    pub fn new(text: &'a [u8]) -> Tokens<'a> {
        Tokens { rest: text }
    }

    /// How many bytes are left.
    pub fn left(&self) -> usize {
        self.rest.len()
    }

    /// The next token of the line.
    pub fn next(&mut self) -> Token<'a> {
        while let [b' ' | b'\t' | b'\r', rest @ ..] = self.rest {
            self.rest = rest;
        }
        match self.rest {
            [] | [b'\n' | b';', ..] => Token::End,
            [b'0'..=b'9', ..] => number(self.take(|byte| byte.is_ascii_digit())),
            [b'a'..=b'z', ..] => word(self.take(|byte| matches!(byte, b'a'..=b'z' | b'0'..=b'9' | b'_'))),
            [mark @ (b'+' | b'-' | b'*' | b'(' | b')' | b':' | b'='), rest @ ..] => {
                self.rest = rest;
                Token::Mark(*mark)
            }
            _ => Token::Outside,
        }
    }

    /// Goes to the line after this one.
    pub fn next_line(&mut self) {
        let end = self.rest.iter().position(|byte| *byte == b'\n');
        self.rest = end.map_or(&[], |end| &self.rest[end + 1..]);
    }

    /// The bytes of one kind from here on.
    fn take(&mut self, kind: impl Fn(&u8) -> bool) -> &'a [u8] {
        let count = self.rest.iter().position(|byte| !kind(byte)).unwrap_or(self.rest.len());
        let (taken, rest) = self.rest.split_at(count);
        self.rest = rest;
        taken
    }
}

fn number(digits: &[u8]) -> Token<'_> {
    let next = |value: u16, digit: &u8| value.checked_mul(10)?.checked_add(u16::from(digit - b'0'));
    Token::Number(digits.iter().try_fold(0, next))
}

fn word(word: &[u8]) -> Token<'_> {
    let (operands, first) = match word {
        [b'r', digit @ b'0'..=b'7'] => return Token::Register(u16::from(digit - b'0')),
        b"load" => (Operands::Register, 256),
        b"copy" => (Operands::Registers, 512),
        b"fetch" => (Operands::Registers, 768),
        b"store" => (Operands::Registers, 1024),
        b"add" => (Operands::Registers, 1280),
        b"subtract" => (Operands::Registers, 1536),
        b"multiply" => (Operands::Registers, 1792),
        b"quotient" => (Operands::Registers, 2048),
        b"remainder" => (Operands::Registers, 2304),
        b"and" => (Operands::Registers, 2560),
        b"or" => (Operands::Registers, 2816),
        b"xor" => (Operands::Registers, 3072),
        b"compare" => (Operands::Registers, 3328),
        b"jump" => (Operands::Sum, 3584),
        b"jumpeq" => (Operands::Sum, 3840),
        b"jumplt" => (Operands::Sum, 3856),
        b"jumpgt" => (Operands::Sum, 3872),
        b"call" => (Operands::Sum, 4096),
        b"return" => (Operands::Nothing, 4352),
        b"send" => (Operands::Nothing, 4624),
        b"receive" => (Operands::Nothing, 4640),
        b"input" => (Operands::Nothing, 4656),
        b"output" => (Operands::Nothing, 4672),
        b"finish" | b"comparesigned" | b"jumpby" | b"jumpbyeq" | b"jumpbylt" | b"jumpbygt" => return Token::Outside,
        b"shiftleft" | b"shiftright" | b"negate" => return Token::Outside,
        _ => return Token::Name(word),
    };
    Token::Order(operands, first)
}
