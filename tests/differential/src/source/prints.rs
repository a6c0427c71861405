//! Lists of words to print, in buffers that fit and in others.

use crate::call::Call;
use model::building;
use model::lists::{self, limits, sweep, Case};
use model::numbers::GOOD;
use model::rng::Rng;

/// One batch in so many is of lists at the limit of their words, and one of neighbouring words at the starts of lines.
const BATCHES_TO_A_LONG_ONE: usize = 25;
const BATCHES_TO_A_SWEEP: usize = 10;
/// How many neighbouring words.
const NEIGHBOURS: usize = 300;
/// How many words more a target has than the list, at most.
const MOST_SPARE: usize = 5;

/// The print of random lists of every sort, the size of their texts, and the way back; or the same of long lists, or of
/// neighbouring words.
pub fn calls(rng: &mut Rng) -> Vec<Call> {
    let cases = if rng.below(BATCHES_TO_A_LONG_ONE) == 0 {
        long(rng)
    } else if rng.below(BATCHES_TO_A_SWEEP) == 0 {
        let words = sweep::some(rng, NEIGHBOURS);
        lists::in_two_rooms(rng, words).into()
    } else {
        lists::family(rng)
    };
    cases.into_iter().flat_map(|case| of_case(rng, case)).collect()
}

/// A random list near the limit in two buffers, and one chosen by hand, which may be over it.
fn long(rng: &mut Rng) -> Vec<Case> {
    let mut by_hand = limits::all();
    let chosen = by_hand.swap_remove(rng.below(by_hand.len()));
    let words = limits::random(rng);
    let mut cases: Vec<Case> = lists::in_two_rooms(rng, words).into();
    cases.push(chosen.case(rng.word()));
    cases
}

/// The print of a case's list and the size of its text, and where it is printed the way back to words.
fn of_case(rng: &mut Rng, case: Case) -> Vec<Call> {
    let Case { words, room, salt, .. } = case;
    let text = lists::filled(room, salt);
    let size = Call::PrintSize { words: words.clone() };
    let print = Call::Print { words: words.clone(), text: text.clone() };
    if case.number != GOOD {
        return vec![size, print];
    }
    let target = building::filled(words.len() + rng.below(MOST_SPARE + 1), rng.word());
    vec![size, print, Call::RoundTrip { words, text, target }]
}
