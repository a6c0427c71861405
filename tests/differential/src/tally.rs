//! How many cases of each call, each number, each kind of answer and each broken rule were compared.

use crate::call::{Answer, Call, LOOKS, NAMES, REPORT, SHARE};
use crate::expected::Outcome;
use model::looking::{Seen, RULES};
use model::numbers::{NOT_THERE, OTHER_RULE};
use std::collections::BTreeMap;

/// The numbers that must occur.
const NUMBERS: [u16; 18] = [0, 1, 2, 3, 4, 5, 6, 7, 8, 9, 11, 12, 13, 14, 15, 16, 17, NOT_THERE];
/// Calls by their places among the names, each with the numbers that must occur in it.
const OF_CALLS: [(usize, &[u16]); 13] = [
    (5, &TEXT_NUMBERS),
    (6, &TEXT_NUMBERS),
    (7, &PRINT_NUMBERS),
    (8, &PRINT_NUMBERS),
    (9, &[0]),
    (LOOKS, &LOOK_NUMBERS),
    (LOOKS + 1, &LOOK_NUMBERS),
    (LOOKS + 2, &LOOK_NUMBERS),
    (LOOKS + 3, &LOOK_NUMBERS),
    (LOOKS + 4, &LOOK_NUMBERS),
    (BROKEN, &BROKEN_NUMBERS),
    (REPORT, &REPORT_NUMBERS),
    (SHARE, &SHARE_NUMBERS),
];
const TEXT_NUMBERS: [u16; 5] = [0, 13, 14, 15, 16];
const PRINT_NUMBERS: [u16; 2] = [0, 16];
const LOOK_NUMBERS: [u16; 8] = [0, 1, 2, 3, 4, 5, 6, NOT_THERE];
const BROKEN_NUMBERS: [u16; 7] = [0, 1, 2, 3, 4, 5, 6];
const REPORT_NUMBERS: [u16; 12] = [0, 1, 2, 3, 4, 5, 6, 7, 8, 9, 12, 17];
/// A share that is told, and none.
const SHARE_NUMBERS: [u16; 2] = [0, NOT_THERE];
/// The place among the names of the call that tells the first broken rule.
const BROKEN: usize = LOOKS + 5;
/// The kinds of answer, all of which must occur.
const KINDS: [u16; 10] = [0, 1, 2, 3, 4, 5, 6, 7, 8, 9];

/// The counts of what was compared.
#[derive(Default)]
pub struct Tally {
    /// Of each call the cases of each number.
    numbers: [BTreeMap<u16, usize>; NAMES.len()],
    /// The accepted events of each kind of answer.
    kinds: [usize; KINDS.len()],
    /// The images of each first broken rule.
    rules: BTreeMap<u16, usize>,
    /// The events that the runs took, and those that were counted.
    taken: u64,
    counted: u64,
    /// The words of all buffers, and the bytes of all texts.
    words: usize,
    bytes: usize,
}

impl Tally {
    /// Counts a call with what the model says of it.
    pub fn count(&mut self, call: &Call, outcome: &Outcome) {
        *self.numbers[call.place()].entry(outcome.number).or_insert(0) += 1;
        self.words += call.buffers().iter().map(|(_, words)| words.len()).sum::<usize>();
        self.bytes += call.texts().iter().map(|(_, bytes)| bytes.len()).sum::<usize>();
        match outcome.answer {
            Answer::Event { number: 0, kind, .. } => self.kinds[usize::from(kind)] += 1,
            Answer::Run { taken, .. } => self.taken += taken,
            Answer::Report { taken, .. } => self.counted += taken,
            Answer::Look(Seen { number: OTHER_RULE, fields }) if call.place() == BROKEN => {
                *self.rules.entry(fields[0]).or_insert(0) += 1
            }
            _ => {}
        }
    }

    /// Prints the counts.
    pub fn print(&self) {
        for (name, numbers) in NAMES.iter().zip(&self.numbers) {
            print_line(name, "number", numbers.clone());
        }
        print_line("all calls", "number", NUMBERS.map(|number| (number, self.of_number(number))));
        print_line("accepted events", "kind", KINDS.into_iter().zip(self.kinds));
        print_line("images that break a rule", "rule", self.rules.clone());
        let Tally { taken, counted, words, bytes, .. } = self;
        println!("{taken} events taken by runs, {counted} by runs that count, {words} words and {bytes} bytes lent");
    }

    /// What did not occur and must, if anything.
    pub fn missing(&self) -> Option<String> {
        let number = NUMBERS.into_iter().find(|&number| self.of_number(number) == 0);
        let kind = KINDS.into_iter().find(|&kind| self.kinds[usize::from(kind)] == 0);
        let number = number.map(|number| format!("number {number} did not occur"));
        let kind = kind.map(|kind| format!("kind {kind} did not occur"));
        let rule = (1..=RULES).find(|rule| !self.rules.contains_key(rule));
        let rule = rule.map(|rule| format!("rule {rule} was never the first that is broken"));
        number.or(kind).or(rule).or(self.missing_of_a_call())
    }

    /// The call and its number that did not occur, if there is one.
    fn missing_of_a_call(&self) -> Option<String> {
        let mut pairs = OF_CALLS.into_iter().flat_map(|(call, numbers)| numbers.iter().map(move |&n| (call, n)));
        let (call, number) = pairs.find(|&(call, n)| !self.numbers[call].contains_key(&n))?;
        Some(format!("{}: number {number} did not occur", NAMES[call]))
    }

    /// The cases of a number, over all calls.
    fn of_number(&self, number: u16) -> usize {
        self.numbers.iter().filter_map(|numbers| numbers.get(&number)).sum()
    }
}

/// Prints how many cases there are of something, and of each value.
fn print_line(name: &str, of: &str, values: impl IntoIterator<Item = (u16, usize)>) {
    let values: Vec<(u16, usize)> = values.into_iter().collect();
    let total: usize = values.iter().map(|(_, cases)| cases).sum();
    let each: Vec<String> = values.iter().map(|(value, cases)| format!("{value}: {cases}")).collect();
    println!("{name}: {total} cases, {of} {}", each.join(", "));
}
