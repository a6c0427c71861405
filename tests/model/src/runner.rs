//! The runner program: what it prints for the bytes of its two files.

use crate::events::{happen, Answer};
use crate::image::Kernel;
use crate::numbers::{self, require};
use crate::plan;

/// The bytes of one event, two to a word.
const EVENT_BYTES: usize = 6;

/// What the runner prints, where a file that is missing counts as empty.
pub fn runner(plan: Option<&[u8]>, events: Option<&[u8]>) -> String {
    match start(plan.unwrap_or_default()) {
        Ok(kernel) => lines(kernel, events.unwrap_or_default()),
        Err(number) => line(0, Err(number)),
    }
}

/// The kernel that a plan's bytes start, or the number that refuses them. An
/// odd count of bytes comes before all else.
fn start(bytes: &[u8]) -> Result<Kernel, u16> {
    require(bytes.len().is_multiple_of(2), numbers::PLAN)?;
    plan::accept(&words(bytes))
}

/// A line for each event, up to the first refused one.
fn lines(mut kernel: Kernel, bytes: &[u8]) -> String {
    let mut text = String::new();
    for (i, event) in bytes.chunks(EVENT_BYTES).enumerate() {
        let outcome = take(&mut kernel, event);
        text += &line(i + 1, outcome);
        if outcome.is_err() {
            break;
        }
    }
    text
}

/// Carries out the event in up to six bytes; fewer are refused.
fn take(kernel: &mut Kernel, bytes: &[u8]) -> Result<Answer, u16> {
    match words(bytes)[..] {
        [kind, device, character] => happen(kernel, [kind, device, character]),
        _ => Err(numbers::EVENT),
    }
}

/// The line of an event's number and its outcome.
fn line(number: usize, outcome: Result<Answer, u16>) -> String {
    match outcome {
        Ok(Answer { kind, task }) => format!("{number} {kind} {task}\n"),
        Err(refusal) => format!("{number} refused {refusal}\n"),
    }
}

/// The whole words of some bytes, low byte first.
fn words(bytes: &[u8]) -> Vec<u16> {
    bytes.chunks_exact(2).map(|pair| u16::from_le_bytes([pair[0], pair[1]])).collect()
}

#[cfg(test)]
mod tests {
    use super::*;

    const TICK: [u16; 3] = [0, 0, 0];
    const LETTER: [u16; 3] = [1, 0, 65];
    const DONE: [u16; 3] = [2, 0, 0];
    const PLAN: [u16; 9] = [1, 2, 1, 1, 1, 4, 2, 4656, 4672];

    fn bytes(words: &[u16]) -> Vec<u8> {
        words.iter().flat_map(|word| [*word as u8, (*word >> 8) as u8]).collect()
    }

    /// What is printed for the paper's plan and the bytes of some events.
    fn on_papers(events: &[u8]) -> String {
        runner(Some(&bytes(&PLAN)), Some(events))
    }

    /// What is printed for the words of a plan, and a tick.
    fn on_plan(plan: &[u16]) -> String {
        runner(Some(&bytes(plan)), Some(&bytes(&TICK)))
    }

    #[test]
    fn the_papers_eleven_lines() {
        let events = [TICK, TICK, TICK, LETTER, TICK, TICK, TICK, TICK, TICK, DONE, DONE];
        let printed = "1 6 0\n2 4 0\n3 0 0\n4 8 0\n5 3 0\n6 6 0\n7 2 0\n8 3 0\n9 7 0\n10 9 0\n\
                       11 refused 9\n";
        assert_eq!(on_papers(&bytes(&events.concat())), printed);
    }

    #[test]
    fn no_events_print_nothing() {
        assert_eq!(on_papers(&[]), "");
        assert_eq!(runner(Some(&bytes(&PLAN)), None), "");
    }

    #[test]
    fn a_refused_plan_prints_only_its_number() {
        assert_eq!(on_plan(&[0, 2, 1, 1, 1, 4, 2, 4656, 4672]), "0 refused 3\n");
        assert_eq!(on_plan(&PLAN[..8]), "0 refused 11\n");
        assert_eq!(on_plan(&PLAN[..4]), "0 refused 11\n");
        assert_eq!(on_plan(&[17, 0, 33, 0]), "0 refused 11\n");
        assert_eq!(on_plan(&[17, 0, 33, 0, 33]), "0 refused 3\n");
        assert_eq!(on_plan(&[]), "0 refused 11\n");
        assert_eq!(runner(None, Some(&bytes(&TICK))), "0 refused 11\n");
        assert_eq!(runner(None, None), "0 refused 11\n");
    }

    #[test]
    fn an_odd_count_of_bytes_in_a_plan_is_11_before_all_else() {
        let odd = |words: &[u16], more: u8| {
            let plan = [bytes(words), vec![more]].concat();
            runner(Some(&plan), Some(&bytes(&TICK)))
        };
        assert_eq!(odd(&PLAN, 0), "0 refused 11\n");
        assert_eq!(odd(&[17, 2, 1, 1, 1, 4, 2, 4656, 4672], 0), "0 refused 11\n");
        assert_eq!(odd(&[17, 2, 1, 1], 0), "0 refused 11\n");
        assert_eq!(odd(&[], 1), "0 refused 11\n");
    }

    #[test]
    fn a_last_event_of_under_six_bytes_is_refused_after_those_before_it() {
        for left_over in 1..6 {
            let two = [bytes(&[TICK, TICK].concat()), vec![0; left_over]].concat();
            assert_eq!(on_papers(&two), "1 6 0\n2 4 0\n3 refused 7\n");
            assert_eq!(on_papers(&two[12..]), "1 refused 7\n");
        }
    }

    #[test]
    fn nothing_is_printed_after_a_refusal() {
        let refusals = [(7, [0, 0, 1]), (7, [256, 0, 0]), (7, [1, 256, 65]), (9, [2, 0, 0])];
        for (number, event) in refusals {
            let events = bytes(&[TICK, event, TICK, event].concat());
            let printed = format!("1 6 0\n2 refused {number}\n");
            assert_eq!(on_papers(&events), printed);
            assert_eq!(on_papers(&[events, vec![0]].concat()), printed);
        }
        let full = bytes(&[LETTER, LETTER, TICK].concat());
        assert_eq!(on_papers(&full), "1 8 0\n2 refused 8\n");
    }
}
