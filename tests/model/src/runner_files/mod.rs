//! The runner's files: plans and events, each pair with the lines that the
//! runner prints for it.

mod buffers;
mod events;
mod long;
mod plans;

use crate::runner::runner;

/// The paper's plan.
const PAPERS: [u16; 9] = [1, 2, 1, 1, 1, 4, 2, 4656, 4672];

const TICK: [u16; 3] = [0, 0, 0];
const LETTER: [u16; 3] = [1, 0, 65];
const DONE: [u16; 3] = [2, 0, 0];

/// The two files of one run, where nothing stands for a file that is missing,
/// and the lines that the runner prints.
pub struct Case {
    pub name: String,
    pub plan: Option<Vec<u8>>,
    pub events: Option<Vec<u8>>,
    pub lines: String,
}

impl Case {
    /// The case of two files with the lines that the model gives.
    fn judged(name: &str, plan: Option<Vec<u8>>, events: Option<Vec<u8>>) -> Case {
        let lines = runner(plan.as_deref(), events.as_deref());
        Case { name: name.into(), plan, events, lines }
    }

    /// The same, where the model must give these lines.
    fn by_hand(name: &str, plan: Option<Vec<u8>>, events: Option<Vec<u8>>, lines: &[&str]) -> Case {
        let case = Case::judged(name, plan, events);
        let by_hand: String = lines.iter().map(|line| format!("{line}\n")).collect();
        assert_eq!(case.lines, by_hand, "case {name}");
        case
    }
}

/// Every case, the paper's first.
pub fn all() -> Vec<Case> {
    [events::all(), plans::all(), buffers::all(), long::all()].into_iter().flatten().collect()
}

/// The bytes of words, low byte first.
fn bytes(words: &[u16]) -> Vec<u8> {
    words.iter().flat_map(|word| word.to_le_bytes()).collect()
}

#[cfg(test)]
mod tests {
    use super::*;
    use std::collections::BTreeSet;

    #[test]
    fn names_are_short_words_and_no_two_are_the_same() {
        let cases = all();
        let names: BTreeSet<&str> = cases.iter().map(|case| case.name.as_str()).collect();
        assert_eq!(names.len(), cases.len());
        for name in names {
            assert!(name.starts_with(|c: char| c.is_ascii_lowercase()) && name.len() <= 20);
            assert!(name.chars().all(|c| c.is_ascii_lowercase() || c.is_ascii_digit() || c == '_'));
        }
    }

    #[test]
    fn every_refusal_is_among_the_lines() {
        let cases = all();
        for line in ["0 refused 3", "0 refused 11"] {
            assert!(cases.iter().any(|case| case.lines == format!("{line}\n")));
        }
        for number in [7, 8, 9] {
            let end = format!(" refused {number}\n");
            let ends = |case: &&Case| case.lines.ends_with(&end);
            assert!(cases.iter().filter(ends).any(|case| case.lines.lines().count() > 2));
        }
    }
}
