//! Scripts with their names, in targets that fit and in others.

use crate::call::Call;
use model::building::filled;
use model::rng::Rng;
use model::texts::faults::Fault;
use model::texts::{family, large, Case};

/// One batch in so many is of long texts.
const BATCHES_TO_A_LONG_ONE: usize = 200;

/// The translation of good texts and of others made from them, and the line that is refused; or the same of long texts.
pub fn calls(rng: &mut Rng, faults: &[Fault], later: &[Fault]) -> Vec<Call> {
    let cases = match rng.below(BATCHES_TO_A_LONG_ONE) {
        0 => long(rng),
        _ => family(rng, faults, later),
    };
    cases.into_iter().flat_map(|case| of_case(rng, case)).collect()
}

/// Random texts of thousands of lines, and one chosen by hand: at the limit of names, or of more than 65535 words.
fn long(rng: &mut Rng) -> Vec<Case> {
    let mut by_hand = large::all();
    let chosen = by_hand.swap_remove(rng.below(by_hand.len()));
    vec![large::random(rng), chosen.case(rng.word())]
}

/// The translation of a case's texts, and their refused line with the same room or with more than any text needs.
fn of_case(rng: &mut Rng, case: Case) -> [Call; 2] {
    let Case { names, script, room, salt, .. } = case;
    let target = filled(room, salt);
    let room = room as u64;
    let room = *rng.pick(&[room, room, room, room + 65536, room + (1 << 32), u64::MAX]);
    let line = Call::RefusedLine { names: names.clone(), script: script.clone(), room };
    [Call::Translate { names, script, target }, line]
}
