//! A line as a tree: what it gives, its order and its sum.

use super::table::{is_name, order, register, Operands};
use super::tokens::Token;

/// The most brackets that are open at once.
pub const MOST_BRACKETS: i64 = 8;

/// What a line of the grammar says. In the names it gives a name with the
/// value of its sum; in the script it gives a label, the first word of its
/// order, and the value of its sum.
#[derive(Clone, Debug, Default, PartialEq, Eq)]
pub struct Statement {
    pub gives: Option<String>,
    pub order: Option<u16>,
    pub sum: Option<Sum>,
}

/// Products, each with the mark before it; the first counts as added.
#[derive(Clone, Debug, PartialEq, Eq)]
pub struct Sum(pub Vec<(Sign, Product)>);

#[derive(Clone, Copy, Debug, PartialEq, Eq)]
pub enum Sign {
    Plus,
    Minus,
}

/// The factors of a product.
#[derive(Clone, Debug, PartialEq, Eq)]
pub struct Product(pub Vec<Term>);

/// A number without a value is over 65535.
#[derive(Clone, Debug, PartialEq, Eq)]
pub enum Term {
    Number(Option<u16>),
    Name(String),
    Brackets(Sum),
}

/// A line of the names, if the row is one.
pub fn names_line(row: &[Token]) -> Option<Statement> {
    match row {
        [] => Some(Statement::default()),
        [Token::Word(name), Token::Mark(b'='), rest @ ..] if is_name(name) => {
            let sum = Some(whole_sum(rest)?);
            Some(Statement { gives: Some(name.clone()), sum, ..Statement::default() })
        }
        _ => None,
    }
}

/// A line of the script, if the row is one.
pub fn script_line(row: &[Token]) -> Option<Statement> {
    match row {
        [Token::Word(name), Token::Mark(b':'), rest @ ..] if is_name(name) => {
            Some(Statement { gives: Some(name.clone()), ..after_label(rest)? })
        }
        _ => after_label(row),
    }
}

/// What may stand after a label or without one: nothing, an order or a sum.
fn after_label(row: &[Token]) -> Option<Statement> {
    match row {
        [] => Some(Statement::default()),
        [Token::Word(word), operands @ ..] if !is_name(word) => with_order(word, operands),
        _ => Some(Statement { sum: Some(whole_sum(row)?), ..Statement::default() }),
    }
}

/// An order with its operands: its registers, and the row of its sum.
fn with_order(name: &str, operands: &[Token]) -> Option<Statement> {
    let order = order(name)?;
    let (fields, sum) = match (order.operands, operands) {
        (Operands::None, []) => (0, None),
        (Operands::Registers, [a, b]) => (16 * a_register(a)? + a_register(b)?, None),
        (Operands::RegisterAndSum, [a, rest @ ..]) => (16 * a_register(a)?, Some(whole_sum(rest)?)),
        (Operands::Sum, rest) => (0, Some(whole_sum(rest)?)),
        _ => return None,
    };
    Some(Statement { gives: None, order: Some(order.first + fields), sum })
}

/// The number of a register.
fn a_register(token: &Token) -> Option<u16> {
    match token {
        Token::Word(word) => register(word),
        _ => None,
    }
}

/// The sum that a whole row is, with few enough brackets open at once.
fn whole_sum(row: &[Token]) -> Option<Sum> {
    let deepest = depths(row).into_iter().max().unwrap_or(0);
    if deepest <= MOST_BRACKETS {
        sum(row)
    } else {
        None
    }
}

/// A row is a sum if each part between its outer `+` and `-` is a product.
fn sum(row: &[Token]) -> Option<Sum> {
    let signed = |(mark, part): (u8, &[Token])| {
        let sign = if mark == b'-' { Sign::Minus } else { Sign::Plus };
        Some((sign, product(part)?))
    };
    parts(row, b"+-").into_iter().map(signed).collect::<Option<_>>().map(Sum)
}

/// A row is a product if each part between its outer `*` is a term.
fn product(row: &[Token]) -> Option<Product> {
    parts(row, b"*").into_iter().map(|(_, part)| term(part)).collect::<Option<_>>().map(Product)
}

/// A term is one number, one name, or a sum in brackets.
fn term(row: &[Token]) -> Option<Term> {
    match row {
        [Token::Number(value)] => Some(Term::Number(*value)),
        [Token::Word(name)] if is_name(name) => Some(Term::Name(name.clone())),
        [Token::Mark(b'('), inner @ .., Token::Mark(b')')] => sum(inner).map(Term::Brackets),
        _ => None,
    }
}

/// The parts of a row between those of the marks that stand outside all
/// brackets, each part with the mark before it; the first has a `+`.
fn parts<'a>(row: &'a [Token], marks: &[u8]) -> Vec<(u8, &'a [Token])> {
    let mut parts = Vec::new();
    let (mut before, mut begin) = (b'+', 0);
    for (place, (token, depth)) in row.iter().zip(depths(row)).enumerate() {
        match token {
            Token::Mark(mark) if depth == 0 && marks.contains(mark) => {
                parts.push((before, &row[begin..place]));
                (before, begin) = (*mark, place + 1);
            }
            _ => {}
        }
    }
    parts.push((before, &row[begin..]));
    parts
}

/// After each token how many more brackets are opened than closed.
fn depths(row: &[Token]) -> Vec<i64> {
    let mut depth = 0;
    let mut after = |token: &Token| {
        depth += match token {
            Token::Mark(b'(') => 1,
            Token::Mark(b')') => -1,
            _ => 0,
        };
        depth
    };
    row.iter().map(&mut after).collect()
}

impl Sum {
    /// The names that it uses, from left to right.
    pub fn names(&self) -> Vec<&str> {
        self.0.iter().flat_map(|(_, product)| &product.0).flat_map(Term::names).collect()
    }
}

impl Term {
    fn names(&self) -> Vec<&str> {
        match self {
            Term::Number(_) => vec![],
            Term::Name(name) => vec![name],
            Term::Brackets(sum) => sum.names(),
        }
    }
}

#[cfg(test)]
mod tests {
    use super::super::tokens::tokens;
    use super::*;

    /// A row as a sum, written with every sum in brackets.
    fn shape(row: &str) -> Option<String> {
        whole_sum(&tokens(row.as_bytes())?).map(|sum| sum_shape(&sum))
    }

    fn sum_shape(Sum(products): &Sum) -> String {
        let signed = |(sign, product): &(Sign, Product)| {
            let factors: Vec<String> = product.0.iter().map(term_shape).collect();
            format!("{}{}", if *sign == Sign::Plus { '+' } else { '-' }, factors.join("*"))
        };
        format!("({})", products.iter().map(signed).collect::<String>())
    }

    fn term_shape(term: &Term) -> String {
        match term {
            Term::Number(value) => value.map_or("?".into(), |value| value.to_string()),
            Term::Name(name) => name.clone(),
            Term::Brackets(sum) => sum_shape(sum),
        }
    }

    #[test]
    fn a_sum_is_split_outside_its_brackets() {
        let is = |row, expected: &str| assert_eq!(shape(row).as_deref(), Some(expected));
        is("1", "(+1)");
        is("a - 2 * b + 65536", "(+a-2*b+?)");
        is("(1 + 2) * 3 - 4", "(+(+1+2)*3-4)");
        is("(1) + (2)", "(+(+1)+(+2))");
        is("((a - (b)))", "(+(+(+a-(+b))))");
    }

    #[test]
    fn other_rows_are_no_sums() {
        for row in ["", "+", "1 +", "- 1", "1 2", "a b", "1 + * 2", "1 - - 1", "()", "(", ")"] {
            assert_eq!(shape(row), None, "{row}");
        }
        for row in ["(1", "1)", ")1(", "(1)(2)", "((1) + (2)", "1) + (2", "2 (3)", "(2) 3", "r0"] {
            assert_eq!(shape(row), None, "{row}");
        }
        for row in ["load", "finish", "1 + r7", "(1 +)", "a:", "a = 1", "(1 * (2 + ) 3)"] {
            assert_eq!(shape(row), None, "{row}");
        }
    }

    #[test]
    fn eight_brackets_may_be_open_and_no_more() {
        let nested = |depth| format!("{}1{}", "(".repeat(depth), ")".repeat(depth));
        assert!(shape(&nested(8)).is_some());
        assert!(shape(&nested(9)).is_none());
        assert!(shape(&nested(100_000)).is_none());
        assert!(shape(&[nested(8), nested(8)].join(" * ")).is_some());
        assert!(shape(&[nested(8), nested(9)].join(" + ")).is_none());
    }
}
