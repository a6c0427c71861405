//! Files that end, or are refused, where a part ends that the runner reads at a
//! time, chosen by hand with their lines.

use super::{bytes, Case, DONE, LETTER, PAPERS, TICK};

/// The events that the runner reads at a time.
pub const EVENTS: usize = 4096;
/// The bytes of a plan that it reads for its words, and those of the rest that
/// it reads at a time.
const PLAN_BYTES: usize = 65612;
const REST_BYTES: usize = 65536;

/// Events at the edge of a buffer, and plans at the edge of theirs.
pub fn all() -> Vec<Case> {
    events().into_iter().chain(plans()).collect()
}

/// A full buffer and no more, a short event after it, and a refusal as its last
/// event, as the first of the next and with as much again to follow.
fn events() -> Vec<Case> {
    let ticks = |count| bytes(&[TICK].repeat(count).concat());
    let after = |count, more: &[u8]| [ticks(count), more.to_vec()].concat();
    let refused = |count| [after(count, &bytes(&DONE)), ticks(EVENTS)].concat();
    vec![
        on_papers("full", ticks(EVENTS), EVENTS, None),
        on_papers("full_short", after(EVENTS, &[0; 3]), EVENTS, Some(7)),
        on_papers("full_refused_last", refused(EVENTS - 1), EVENTS - 1, Some(9)),
        on_papers("full_refused_next", refused(EVENTS), EVENTS, Some(9)),
    ]
}

/// Ticks of the paper's task, which reads, waits and is idle from then on, and
/// the refusal after them.
fn on_papers(name: &str, events: Vec<u8>, ticks: usize, refusal: Option<u16>) -> Case {
    let kind = |event: usize| [6, 4].get(event - 1).copied().unwrap_or(0);
    let taken = (1..=ticks).map(|event| format!("{event} {} 0", kind(event)));
    let refused = refusal.map(|number| format!("{} refused {number}", ticks + 1));
    let lines: Vec<String> = taken.chain(refused).collect();
    let lines: Vec<&str> = lines.iter().map(String::as_str).collect();
    Case::by_hand(name, Some(bytes(&PAPERS)), Some(events), &lines)
}

/// Plans with a wrong N that end with a buffer, and with one byte more, which
/// comes before all else.
fn plans() -> Vec<Case> {
    let padded = |name: &str, count: usize, number: u16| {
        let mut plan = bytes(&[17, 2, 1, 1, 1, 4, 2, 4656, 4672]);
        plan.resize(count, 0);
        let line = format!("0 refused {number}");
        Case::by_hand(name, Some(plan), Some(bytes(&LETTER)), &[line.as_str()])
    };
    vec![
        padded("plan_full", PLAN_BYTES, 3),
        padded("plan_full_odd", PLAN_BYTES + 1, 11),
        padded("rest_full", PLAN_BYTES + REST_BYTES, 3),
        padded("rest_full_odd", PLAN_BYTES + REST_BYTES + 1, 11),
    ]
}
