//! Texts with one named fault, which gives number 13, 14 or 15 on a line that
//! is known.

use super::draft::{Draft, Line};
use super::sums::bracketed;
use super::writing::{self, OUTSIDE};
use super::wrong;
use crate::numbers::{GRAMMAR, NAME, VALUE};
use crate::rng::Rng;
use crate::translate::table::LATER;
use crate::translate::{translate, Text, NAMES, SCRIPT};

/// A line of one of the texts, counted from 0.
type Spot = (Text, usize);

/// Changes good texts and gives the line that is then refused; nothing where
/// these texts cannot have the fault.
type Change = fn(&mut Rng, &mut Draft) -> Option<Spot>;

/// One fault of a text, and the number it must give.
#[derive(Clone, Copy)]
pub struct Fault {
    pub name: &'static str,
    pub number: u16,
    change: Change,
}

/// Every fault of a text.
pub fn all() -> Vec<Fault> {
    let of = |number, rows: &[(&'static str, Change)]| -> Vec<Fault> {
        rows.iter().map(|&(name, change)| Fault { name, number, change }).collect()
    };
    [of(GRAMMAR, &OF_BYTES), of(GRAMMAR, &OF_LINES), of(NAME, &OF_NAMES), of(VALUE, &OF_VALUES)].concat()
}

/// Every fault of a line of the grammar: those that give 14 or 15.
pub fn past_the_grammar() -> Vec<Fault> {
    all().into_iter().filter(|fault| fault.number != GRAMMAR).collect()
}

impl Fault {
    /// Good texts with this fault, or nothing where they cannot have it. The
    /// model must refuse the line with the number.
    pub fn apply(&self, rng: &mut Rng, draft: &Draft) -> Option<Draft> {
        let mut faulty = draft.clone();
        let (text, line) = (self.change)(rng, &mut faulty)?;
        let [names, script] = faulty.bytes();
        let found = translate(&names, &script, usize::MAX);
        let text_number = if text == Text::Names { NAMES } else { SCRIPT };
        let bytes = faulty.text(text)[line].bytes.len();
        assert_eq!(
            (found.number, found.text, found.start, found.bytes),
            (self.number, text_number, faulty.start(text, line), bytes),
            "fault \"{}\" of {faulty:?}",
            self.name
        );
        Some(faulty)
    }
}

/// One fault of the list that these good texts can have, carried out. A name
/// on its own line is one that all can have.
pub fn any(rng: &mut Rng, draft: &Draft, faults: &[Fault]) -> Draft {
    loop {
        if let Some(faulty) = rng.pick(faults).apply(rng, draft) {
            return faulty;
        }
    }
}

/// Good texts with two to four faults, on any lines of both texts.
pub fn several(rng: &mut Rng, draft: &Draft, faults: &[Fault]) -> Draft {
    let mut faulty = draft.clone();
    for _ in 0..rng.between(2, 4) {
        let fault = *rng.pick(faults);
        (fault.change)(rng, &mut faulty);
    }
    faulty
}

/// Bytes that no line has before its comment: 13.
const OF_BYTES: [(&str, Change); 3] = [
    ("a byte outside the grammar", |rng, draft| {
        let byte = *rng.pick(OUTSIDE);
        with_byte(rng, draft, byte)
    }),
    ("a capital letter", |rng, draft| {
        let byte = *rng.pick(b"ABCLRXYZ");
        with_byte(rng, draft, byte)
    }),
    ("a low line first", |rng, draft| {
        let (text, line) = any_line(rng, draft)?;
        draft.text_mut(text)[line].bytes.insert(0, b'_');
        Some((text, line))
    }),
];

/// Rows of tokens that are no lines: 13.
const OF_LINES: [(&str, Change); 8] = [
    ("a line that no names have", |rng, draft| {
        let row = *rng.pick(&wrong::NAMES_LINES);
        let line = Line::of_tokens(rng, row);
        Some(insert(rng, draft, Text::Names, line))
    }),
    ("a line that no script has", |rng, draft| {
        let row = *rng.pick(&wrong::SCRIPT_LINES);
        let line = Line::of_tokens(rng, row);
        Some(insert(rng, draft, Text::Script, line))
    }),
    ("a row that is no sum", |rng, draft| {
        let row = *rng.pick(&wrong::NO_SUMS);
        with_sum(rng, draft, |_, _| tokens(row))
    }),
    ("a bracket too many", |rng, draft| {
        with_sum(rng, draft, |rng, mut sum| {
            let place = rng.below(sum.len() + 1);
            sum.insert(place, (*rng.pick(&["(", ")"])).into());
            sum
        })
    }),
    ("a mark at an end", |rng, draft| {
        with_sum(rng, draft, |rng, mut sum| {
            let place = *rng.pick(&[0, sum.len()]);
            sum.insert(place, (*rng.pick(&["+", "-", "*", "="])).into());
            sum
        })
    }),
    ("nine brackets", |rng, draft| with_sum(rng, draft, |_, sum| bracketed(sum, 9))),
    ("a kept word in a sum", |rng, draft| {
        with_sum(rng, draft, |rng, sum| {
            let kept = *rng.pick(&["r0", "r7", "load", "or", "return", LATER[0], LATER[8]]);
            longer(sum, &["+", kept])
        })
    }),
    ("two values", |rng, draft| with_sum(rng, draft, |_, sum| longer(sum, &["7"]))),
];

/// Names that are missing, or given twice: 14.
const OF_NAMES: [(&str, Change); 6] = [
    ("a missing name", |rng, draft| {
        let missing = fresh(rng, draft);
        with_sum(rng, draft, |rng, sum| {
            let mark = *rng.pick(&["+", "-", "*"]);
            longer(sum, &[mark, &missing])
        })
    }),
    ("a name on its own line", |rng, draft| {
        let name = fresh(rng, draft);
        let line = Line::naming(rng, &name, vec![name.clone()]);
        Some(insert(rng, draft, Text::Names, line))
    }),
    ("a name of a line below", |rng, draft| {
        let (place, below) = giving(rng, &draft.names)?;
        let name = fresh(rng, draft);
        let line = Line::naming(rng, &name, vec![below]);
        let above = rng.below(place + 1);
        draft.names.insert(above, line);
        Some((Text::Names, above))
    }),
    ("a label in the names", |rng, draft| {
        let (_, label) = giving(rng, &draft.script)?;
        let name = fresh(rng, draft);
        let line = Line::naming(rng, &name, vec![label]);
        Some(insert(rng, draft, Text::Names, line))
    }),
    ("a name given twice", |rng, draft| {
        let (place, name) = giving(rng, &draft.names)?;
        let line = Line::naming(rng, &name, vec!["1".into()]);
        let later = rng.between(place + 1, draft.names.len());
        draft.names.insert(later, line);
        Some((Text::Names, later))
    }),
    ("a label given before", |rng, draft| {
        let text = *rng.pick(&[Text::Names, Text::Script]);
        let (place, name) = giving(rng, draft.text(text))?;
        let line = Line::of_tokens(rng, &format!("{name} :"));
        let first = if text == Text::Names { 0 } else { place + 1 };
        let later = rng.between(first, draft.script.len());
        draft.script.insert(later, line);
        Some((Text::Script, later))
    }),
];

/// Sums out of range: 15.
const OF_VALUES: [(&str, Change); 4] = [
    ("a sum out of range", |rng, draft| {
        let row = *rng.pick(&wrong::OUT_OF_RANGE);
        with_sum(rng, draft, |_, _| tokens(row))
    }),
    ("a sum too large", |rng, draft| with_sum(rng, draft, |_, sum| longer(sum, &["+", "65535", "+", "1"]))),
    ("a sum under 0", |rng, draft| with_sum(rng, draft, |_, sum| longer(sum, &["-", "65535", "-", "1"]))),
    ("a long number", |rng, draft| {
        let number = format!("{}{}", rng.between(1, 9), "0".repeat(rng.between(5, 400)));
        with_sum(rng, draft, |_, sum| longer(sum, &["*", &number]))
    }),
];

/// Puts a byte into a line, before its comment.
fn with_byte(rng: &mut Rng, draft: &mut Draft, byte: u8) -> Option<Spot> {
    let (text, line) = any_line(rng, draft)?;
    let bytes = &mut draft.text_mut(text)[line].bytes;
    let comment = bytes.iter().position(|&byte| byte == b';').unwrap_or(bytes.len());
    bytes.insert(rng.below(comment + 1), byte);
    Some((text, line))
}

/// Changes the sum of a line that has one.
fn with_sum(rng: &mut Rng, draft: &mut Draft, change: impl Fn(&mut Rng, Vec<String>) -> Vec<String>) -> Option<Spot> {
    let has_sum = |&(text, line): &Spot| !draft.text(text)[line].sum.is_empty();
    let spots = spots(draft).into_iter().filter(has_sum).collect();
    let (text, line) = one_of(rng, spots)?;
    let old = draft.text(text)[line].clone();
    let sum = change(rng, old.sum.clone());
    draft.text_mut(text)[line] = Line { sum, ..old }.written(rng);
    Some((text, line))
}

/// Every line of both texts.
fn spots(draft: &Draft) -> Vec<Spot> {
    let of = |text| (0..draft.text(text).len()).map(move |line| (text, line));
    of(Text::Names).chain(of(Text::Script)).collect()
}

fn any_line(rng: &mut Rng, draft: &Draft) -> Option<Spot> {
    one_of(rng, spots(draft))
}

/// One of a list, if there is one.
fn one_of<T: Clone>(rng: &mut Rng, list: Vec<T>) -> Option<T> {
    if list.is_empty() {
        None
    } else {
        Some(rng.pick(&list).clone())
    }
}

/// Puts a line anywhere in a text.
fn insert(rng: &mut Rng, draft: &mut Draft, text: Text, line: Line) -> Spot {
    let lines = draft.text_mut(text);
    let place = rng.below(lines.len() + 1);
    lines.insert(place, line);
    (text, place)
}

/// A line that gives a name or label, and what it gives.
fn giving(rng: &mut Rng, lines: &[Line]) -> Option<(usize, String)> {
    let given = |(place, line): (usize, &Line)| Some((place, line.gives.clone()?));
    one_of(rng, lines.iter().enumerate().filter_map(given).collect())
}

/// A name that neither text gives.
fn fresh(rng: &mut Rng, draft: &Draft) -> String {
    loop {
        let name = writing::name(rng);
        let gives = |line: &Line| line.gives.as_ref() == Some(&name);
        if !draft.names.iter().chain(&draft.script).any(gives) {
            return name;
        }
    }
}

/// A sum with more tokens after it.
fn longer(sum: Vec<String>, more: &[&str]) -> Vec<String> {
    sum.into_iter().chain(more.iter().map(|&token| token.into())).collect()
}

/// The tokens of a row that has blanks between them.
fn tokens(row: &str) -> Vec<String> {
    row.split(' ').map(String::from).collect()
}
