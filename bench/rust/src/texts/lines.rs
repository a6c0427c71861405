//! The lines of a text by the grammar, in recursive descent.

use super::sums::Step;
use super::tokens::{Operands, Token, Tokens};
use std::ops::Range;

/// How deep brackets are nested at most.
const DEEPEST: usize = 8;

/// The line is not one of the grammar.
pub struct Outside;

type Parsed<T> = Result<T, Outside>;

/// A name or label that a line gives.
pub struct Given<'a> {
    /// The place of the line's first byte.
    pub start: usize,
    pub name: &'a [u8],
    /// How many words the lines above give.
    pub place: usize,
}

/// A sum that is a word.
pub struct Sum {
    /// The place of the line's first byte.
    pub start: usize,
    /// The word's place.
    pub place: usize,
    pub steps: Range<usize>,
}

/// What the lines of a text give, in their order.
#[derive(Default)]
pub struct Lines<'a> {
    pub given: Vec<Given<'a>>,
    pub sums: Vec<Sum>,
    /// The steps of all sums.
    pub steps: Vec<Step<'a>>,
    /// The words of the orders, with 0 for each sum.
    pub words: Vec<u16>,
}

impl<'a> Lines<'a> {
    /// A list of names, or where the first line outside the grammar starts. The
    /// names and the sums belong together one by one.
    pub fn of_names(text: &'a [u8], most_given: usize) -> Result<Lines<'a>, usize> {
        Lines::parse(text, most_given, Parser::names_line)
    }

    /// A script, or where the first line outside the grammar starts.
    pub fn of_script(text: &'a [u8], most_given: usize) -> Result<Lines<'a>, usize> {
        Lines::parse(text, most_given, Parser::script_line)
    }

    fn parse(
        text: &'a [u8],
        most_given: usize,
        parse_line: impl Fn(&mut Parser<'a>) -> Parsed<()>,
    ) -> Result<Lines<'a>, usize> {
        let mut parser = Parser { tokens: Tokens::new(text), token: Token::End, start: 0, lines: Lines::default() };
        while parser.tokens.left() > 0 {
            parser.start = text.len() - parser.tokens.left();
            parser.advance();
            parse_line(&mut parser).map_err(|Outside| parser.start)?;
            if !matches!(parser.token, Token::End) || parser.lines.given.len() > most_given {
                return Err(parser.start);
            }
            parser.tokens.next_line();
        }
        Ok(parser.lines)
    }
}

/// The tokens behind the one in hand, where the line starts, and what was found
/// so far.
struct Parser<'a> {
    tokens: Tokens<'a>,
    token: Token<'a>,
    start: usize,
    lines: Lines<'a>,
}

impl<'a> Parser<'a> {
    fn advance(&mut self) {
        self.token = self.tokens.next();
    }

    fn names_line(&mut self) -> Parsed<()> {
        match self.token {
            Token::End => Ok(()),
            Token::Name(name) => {
                self.advance();
                self.mark(b'=')?;
                self.give(name);
                self.word_of_sum()
            }
            _ => Err(Outside),
        }
    }

    fn script_line(&mut self) -> Parsed<()> {
        if let Some(label) = self.label() {
            self.give(label);
        }
        match self.token {
            Token::End => Ok(()),
            Token::Order(operands, first) => {
                self.advance();
                self.order(operands, first)
            }
            _ => self.word_of_sum(),
        }
    }

    fn give(&mut self, name: &'a [u8]) {
        self.lines.given.push(Given { start: self.start, name, place: self.lines.words.len() });
    }

    /// A label, where a `:` stands behind the name.
    fn label(&mut self) -> Option<&'a [u8]> {
        let Token::Name(name) = self.token else {
            return None;
        };
        let mut ahead = self.tokens;
        if !matches!(ahead.next(), Token::Mark(b':')) {
            return None;
        }
        self.tokens = ahead;
        self.advance();
        Some(name)
    }

    /// An order's operands; its first word is given without registers.
    fn order(&mut self, operands: Operands, first: u16) -> Parsed<()> {
        let registers = match operands {
            Operands::Nothing | Operands::Sum => 0,
            Operands::Register => 16 * self.register()?,
            Operands::Registers => 16 * self.register()? + self.register()?,
        };
        self.lines.words.push(first + registers);
        match operands {
            Operands::Nothing | Operands::Registers => Ok(()),
            Operands::Sum | Operands::Register => self.word_of_sum(),
        }
    }

    /// A sum that is a word.
    fn word_of_sum(&mut self) -> Parsed<()> {
        let first = self.lines.steps.len();
        self.sum(0)?;
        let steps = first..self.lines.steps.len();
        self.lines.sums.push(Sum { start: self.start, place: self.lines.words.len(), steps });
        self.lines.words.push(0);
        Ok(())
    }

    fn register(&mut self) -> Parsed<u16> {
        let Token::Register(register) = self.token else {
            return Err(Outside);
        };
        self.advance();
        Ok(register)
    }

    fn mark(&mut self, expected: u8) -> Parsed<()> {
        match self.token {
            Token::Mark(mark) if mark == expected => {
                self.advance();
                Ok(())
            }
            _ => Err(Outside),
        }
    }

    fn sum(&mut self, depth: usize) -> Parsed<()> {
        self.product(depth)?;
        while let Token::Mark(mark @ (b'+' | b'-')) = self.token {
            self.advance();
            self.product(depth)?;
            self.lines.steps.push(if mark == b'+' { Step::Add } else { Step::Subtract });
        }
        Ok(())
    }

    fn product(&mut self, depth: usize) -> Parsed<()> {
        self.term(depth)?;
        while let Token::Mark(b'*') = self.token {
            self.advance();
            self.term(depth)?;
            self.lines.steps.push(Step::Multiply);
        }
        Ok(())
    }

    fn term(&mut self, depth: usize) -> Parsed<()> {
        match self.token {
            Token::Number(number) => self.lines.steps.push(Step::Number(number)),
            Token::Name(name) => self.lines.steps.push(Step::Name(name)),
            Token::Mark(b'(') if depth < DEEPEST => {
                self.advance();
                self.sum(depth + 1)?;
                return self.mark(b')');
            }
            _ => return Err(Outside),
        }
        self.advance();
        Ok(())
    }
}
