//! Words printed back as a text, by the page of the text form.
//!
//! What a first word stands for is the paper's; its spelling is the page's.

use crate::image::service;
use crate::numbers::ROOM;
use crate::orders::{Order, Reckoning};

/// The most words of a list that is printed: the longest segment.
pub const MOST_WORDS: usize = 32715;

/// An order as it is spelled: its name, its registers, and whether its second
/// word follows them.
#[derive(Debug, PartialEq, Eq)]
struct Spelling {
    name: &'static str,
    registers: Vec<usize>,
    sum: bool,
}

/// The text of the words for a buffer of so many bytes, or the number that
/// refuses it.
pub fn print(words: &[u16], room: usize) -> Result<Vec<u8>, u16> {
    let needed = size(words)?;
    if needed > room {
        return Err(ROOM);
    }
    Ok(text(words))
}

/// How many bytes the text of the words has, or the number that refuses them.
pub fn size(words: &[u16]) -> Result<usize, u16> {
    if words.len() > MOST_WORDS {
        return Err(ROOM);
    }
    Ok(text(words).len())
}

/// The text of a list of any length: its lines, each ended by byte 10.
pub fn text(words: &[u16]) -> Vec<u8> {
    let mut left = words;
    let mut text = String::new();
    while let [first, after @ ..] = left {
        let (line, used) = line(*first, after.first().copied());
        text.push_str(&line);
        text.push('\n');
        left = &left[used..];
    }
    text.into_bytes()
}

/// The line that a word begins, and how many words stand on it.
fn line(first: u16, second: Option<u16>) -> (String, usize) {
    match (spelling(first), second) {
        (Some(order), Some(sum)) if order.sum => (format!("{} {sum}", order.head()), 2),
        (Some(order), _) if !order.sum => (order.head(), 1),
        _ => (first.to_string(), 1),
    }
}

/// The spelling of the order that a first word stands for, if it has neither
/// error 2 nor error 3.
fn spelling(first: u16) -> Option<Spelling> {
    let order = Order::decode(first).ok()?;
    Some(match order {
        Order::Load { to } => Spelling { name: "load", registers: vec![to], sum: true },
        Order::Copy { to, from } => on_registers("copy", [to, from]),
        Order::Fetch { to, at } => on_registers("fetch", [to, at]),
        Order::Store { from, at } => on_registers("store", [from, at]),
        Order::Reckon { how, to, by } => on_registers(reckoning(how), [to, by]),
        Order::Compare { left, right } => on_registers("compare", [left, right]),
        Order::Jump => with_sum("jump"),
        Order::JumpIf { cc } => with_sum(["jumpeq", "jumplt", "jumpgt"][usize::from(cc)]),
        Order::Call => with_sum("call"),
        Order::Return => alone("return"),
        Order::Service { number } => alone(service_name(number)),
    })
}

/// The name of an order of ops 5 to 12.
fn reckoning(how: Reckoning) -> &'static str {
    match how {
        Reckoning::Sum => "add",
        Reckoning::Difference => "subtract",
        Reckoning::Product => "multiply",
        Reckoning::Quotient => "quotient",
        Reckoning::Remainder => "remainder",
        Reckoning::And => "and",
        Reckoning::Or => "or",
        Reckoning::ExclusiveOr => "xor",
    }
}

/// The name of a service, by its number.
fn service_name(number: u16) -> &'static str {
    match number {
        service::SEND => "send",
        service::RECEIVE => "receive",
        service::INPUT => "input",
        service::OUTPUT => "output",
        _ => unreachable!("service {number} is error 3"),
    }
}

fn on_registers(name: &'static str, registers: [usize; 2]) -> Spelling {
    Spelling { name, registers: registers.into(), sum: false }
}

fn with_sum(name: &'static str) -> Spelling {
    Spelling { name, registers: vec![], sum: true }
}

fn alone(name: &'static str) -> Spelling {
    Spelling { name, registers: vec![], sum: false }
}

impl Spelling {
    /// The name and the registers, each after one space.
    fn head(&self) -> String {
        let registers: String = self.registers.iter().map(|register| format!(" r{register}")).collect();
        format!("{}{registers}", self.name)
    }
}

/// Whether a word begins a line of two words where another follows it.
pub fn takes_two(first: u16) -> bool {
    spelling(first).is_some_and(|order| order.sum)
}

#[cfg(test)]
mod tests {
    use super::*;
    use crate::translate::{translate, Translation, NO_TEXT};

    #[test]
    fn so_many_words_begin_two() {
        assert_eq!((0..=u16::MAX).filter(|&word| takes_two(word)).count(), 13);
    }

    #[test]
    fn a_text_must_fit_and_a_list_must_not_be_too_long() {
        let example = [4656, 7];
        assert_eq!(size(&example), Ok(8));
        assert_eq!(print(&example, 8), Ok(b"input\n7\n".to_vec()));
        assert_eq!(print(&example, 9), Ok(b"input\n7\n".to_vec()));
        assert_eq!(print(&example, 7), Err(16));
        assert_eq!(print(&[], 0), Ok(vec![]));
        assert_eq!(size(&[0; 32715]), Ok(65430));
        assert_eq!(print(&[0; 32715], 65430), Ok(b"0\n".repeat(32715)));
        assert_eq!(print(&[0; 32715], 65429), Err(16));
        assert_eq!(size(&[0; 32716]), Err(16));
        assert_eq!(print(&[0; 32716], 70000), Err(16));
    }

    /// The text translates to its words, with no names.
    fn returns(words: &[u16]) {
        let back = translate(b"", &text(words), words.len());
        let same = Translation { number: 0, text: NO_TEXT, start: 0, bytes: 0, words: words.to_vec() };
        assert_eq!(back, same);
    }

    #[test]
    fn every_word_translates_back_alone_and_before_another() {
        for word in 0..=u16::MAX {
            returns(&[word]);
            returns(&[word, 272]);
        }
    }

    #[test]
    fn lists_translate_back() {
        for case in crate::lists::collect(5, 30) {
            if case.words.len() <= MOST_WORDS {
                returns(&case.words);
            }
        }
    }
}
