//! Files of events for the paper's plan, chosen by hand with their lines.

use super::{bytes, Case, DONE, LETTER, PAPERS, TICK};

/// A name, events, and the lines by hand.
type Row<'a> = (&'a str, &'a [[u16; 3]], &'a [&'a str]);

/// The paper's run, no events, short events and refused ones.
pub fn all() -> Vec<Case> {
    let mut cases = vec![papers_run(), no_events(), events_missing()];
    cases.extend((1..6).map(short_last));
    cases.extend([short_only(1), short_only(5), short_input(), short_after_refusal()]);
    cases.extend(refused());
    cases
}

/// A case of the paper's plan.
fn on_papers(name: &str, events: Vec<u8>, lines: &[&str]) -> Case {
    Case::by_hand(name, Some(bytes(&PAPERS)), Some(events), lines)
}

fn papers_run() -> Case {
    let events = [TICK, TICK, TICK, LETTER, TICK, TICK, TICK, TICK, TICK, DONE, DONE];
    let lines =
        ["1 6 0", "2 4 0", "3 0 0", "4 8 0", "5 3 0", "6 6 0", "7 2 0", "8 3 0", "9 7 0", "10 9 0", "11 refused 9"];
    on_papers("paper", bytes(&events.concat()), &lines)
}

fn no_events() -> Case {
    on_papers("no_events", vec![], &[])
}

fn events_missing() -> Case {
    Case::by_hand("events_missing", Some(bytes(&PAPERS)), None, &[])
}

/// Two ticks and so many bytes of a third.
fn short_last(left_over: usize) -> Case {
    let events = bytes(&[TICK; 3].concat())[..12 + left_over].to_vec();
    on_papers(&format!("short_last_{left_over}"), events, &["1 6 0", "2 4 0", "3 refused 7"])
}

/// So many bytes of a tick and nothing else.
fn short_only(bytes: usize) -> Case {
    on_papers(&format!("short_only_{bytes}"), vec![0; bytes], &["1 refused 7"])
}

/// An input of which the character's high byte is missing.
fn short_input() -> Case {
    on_papers("short_input", bytes(&LETTER)[..5].to_vec(), &["1 refused 7"])
}

/// A refused event stops the run before the short one.
fn short_after_refusal() -> Case {
    let events = [bytes(&[TICK, DONE].concat()), vec![0; 3]].concat();
    on_papers("short_unread", events, &["1 6 0", "2 refused 9"])
}

/// A refused event in the midst, one at the start, and one that is refused
/// for a high byte alone.
fn refused() -> Vec<Case> {
    let rows: [Row; 10] = [
        ("refused_7", &[TICK, TICK, [0, 1, 0], TICK, LETTER], &["1 6 0", "2 4 0", "3 refused 7"]),
        ("refused_8", &[TICK, LETTER, LETTER, TICK, TICK], &["1 6 0", "2 8 0", "3 refused 8"]),
        ("refused_9", &[TICK, TICK, DONE, TICK, LETTER], &["1 6 0", "2 4 0", "3 refused 9"]),
        ("refused_first_7", &[[3, 0, 0], TICK], &["1 refused 7"]),
        ("refused_first_9", &[DONE, TICK], &["1 refused 9"]),
        ("refused_twice", &[TICK, DONE, [3, 0, 0], DONE], &["1 6 0", "2 refused 9"]),
        ("kind_256", &[TICK, [256, 0, 0], TICK], &["1 6 0", "2 refused 7"]),
        ("device_256", &[TICK, [1, 256, 65], TICK], &["1 6 0", "2 refused 7"]),
        ("character_256", &[TICK, [1, 0, 256], TICK], &["1 6 0", "2 refused 7"]),
        ("device_1", &[TICK, [2, 1, 0], TICK], &["1 6 0", "2 refused 7"]),
    ];
    rows.map(|(name, events, lines)| on_papers(name, bytes(&events.concat()), lines)).into()
}
