//! A script and its names into words, by the page of the text form.
//!
//! Each line becomes a row of tokens and then a tree. The refusals are four
//! passes over the lines of both texts, one after another.

pub mod table;
mod tokens;
mod tree;

pub use tokens::Text;

use crate::numbers::{GOOD, GRAMMAR, NAME, ROOM, VALUE};
use std::collections::{BTreeMap, BTreeSet};
use tokens::{lines, tokens, Line};
use tree::{names_line, script_line, Product, Sign, Statement, Sum, Term};

/// The most names and labels of both texts together.
pub const MOST_GIVEN: usize = 8192;

/// What stands for the text of the refused line, and that none is refused.
pub const NAMES: u16 = 0;
pub const SCRIPT: u16 = 1;
pub const NO_TEXT: u16 = 65535;

/// What a translation comes back with.
#[derive(Clone, Debug, PartialEq, Eq)]
pub struct Translation {
    /// 0, or the number that refuses a line: 13 to 16.
    pub number: u16,
    /// The text of the refused line.
    pub text: u16,
    /// Where the refused line begins in its text, and its count of bytes
    /// without its byte 10; both 0 where none is refused.
    pub start: usize,
    pub bytes: usize,
    /// The script's words; none where a line is refused.
    pub words: Vec<u16>,
}

/// A line of the grammar and its tree.
type Read<'a> = (Line<'a>, Statement);

/// The number that refuses a line, and that line.
type Refusal<'a> = (u16, Line<'a>);

/// The values of names and labels. A label past 65535 has none.
type Values<'a> = BTreeMap<&'a str, Option<u16>>;

/// Translates a script with its names for a target of so many words.
pub fn translate(names: &[u8], script: &[u8], room: usize) -> Translation {
    match accept(names, script, room) {
        Ok(words) => Translation { number: GOOD, text: NO_TEXT, start: 0, bytes: 0, words },
        Err((number, line)) => Translation {
            number,
            text: if line.text == Text::Names { NAMES } else { SCRIPT },
            start: line.start,
            bytes: line.bytes.len(),
            words: Vec::new(),
        },
    }
}

/// The script's words, or the first refusal: 13 of any line is tested before
/// 14, that before 15, and that before 16.
fn accept<'a>(names: &'a [u8], script: &'a [u8], room: usize) -> Result<Vec<u16>, Refusal<'a>> {
    let mut all = lines(Text::Names, names);
    all.extend(lines(Text::Script, script));
    let read = all_read(&all)?;
    all_known(&read)?;
    let words = all_worked(&read)?;
    match all.last() {
        Some(&last) if words.len() > room => Err((ROOM, last)),
        _ => Ok(words),
    }
}

/// Every line with its tree, if all are lines of the grammar and none gives a
/// name or label more than there may be.
fn all_read<'a>(lines: &[Line<'a>]) -> Result<Vec<Read<'a>>, Refusal<'a>> {
    let mut given = 0;
    let mut read = Vec::new();
    for &line in lines {
        let statement = statement(line).ok_or((GRAMMAR, line))?;
        given += usize::from(statement.gives.is_some());
        if given > MOST_GIVEN {
            return Err((GRAMMAR, line));
        }
        read.push((line, statement));
    }
    Ok(read)
}

/// The tree of a line of the grammar.
fn statement(line: Line) -> Option<Statement> {
    let row = tokens(line.bytes)?;
    match line.text {
        Text::Names => names_line(&row),
        Text::Script => script_line(&row),
    }
}

/// Accepts lines that use only what is given, in the names above them, and
/// give nothing that was given before.
fn all_known<'a>(read: &[Read<'a>]) -> Result<(), Refusal<'a>> {
    let in_script = read.iter().filter(|(line, _)| line.text == Text::Script);
    let labels: BTreeSet<&str> = in_script.filter_map(|(_, said)| said.gives.as_deref()).collect();
    let mut above = BTreeSet::new();
    for (line, said) in read {
        let used = said.sum.as_ref().map_or(vec![], Sum::names);
        let is_label = |name: &str| line.text == Text::Script && labels.contains(name);
        let known = used.into_iter().all(|name| above.contains(name) || is_label(name));
        let fresh = said.gives.as_deref().is_none_or(|name| above.insert(name));
        if !(known && fresh) {
            return Err((NAME, *line));
        }
    }
    Ok(())
}

/// The script's words, if every sum of both texts can be worked.
fn all_worked<'a>(read: &[Read<'a>]) -> Result<Vec<u16>, Refusal<'a>> {
    let mut values = label_values(read);
    let mut words = Vec::new();
    for (line, said) in read {
        let value = match &said.sum {
            Some(sum) => Some(work(sum, &values).ok_or((VALUE, *line))?),
            None => None,
        };
        match (line.text, said.gives.as_deref()) {
            (Text::Names, Some(name)) => _ = values.insert(name, value),
            (Text::Names, None) => {}
            (Text::Script, _) => words.extend(said.order.into_iter().chain(value)),
        }
    }
    Ok(words)
}

/// The labels, each with the number of words that the lines above it give.
fn label_values<'a>(read: &'a [Read]) -> Values<'a> {
    let mut values = Values::new();
    let mut place = 0;
    for (_, said) in read.iter().filter(|(line, _)| line.text == Text::Script) {
        if let Some(label) = &said.gives {
            values.insert(label, u16::try_from(place).ok());
        }
        place += usize::from(said.order.is_some()) + usize::from(said.sum.is_some());
    }
    values
}

/// The value of a sum, worked left to right, if each number, name and partial
/// result has one.
fn work(Sum(products): &Sum, values: &Values) -> Option<u16> {
    products.iter().try_fold(0u16, |left, (sign, product)| {
        let right = multiplied(product, values)?;
        match sign {
            Sign::Plus => left.checked_add(right),
            Sign::Minus => left.checked_sub(right),
        }
    })
}

/// The value of a product, worked left to right.
fn multiplied(Product(terms): &Product, values: &Values) -> Option<u16> {
    terms.iter().try_fold(1u16, |left, term| left.checked_mul(term_value(term, values)?))
}

fn term_value(term: &Term, values: &Values) -> Option<u16> {
    match term {
        Term::Number(value) => *value,
        Term::Name(name) => values[name.as_str()],
        Term::Brackets(sum) => work(sum, values),
    }
}
