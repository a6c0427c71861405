//! The cases of texts: which names, scripts and targets the file of vectors
//! holds.

mod draft;
pub mod faults;
pub mod large;
mod noise;
mod special;
mod sums;
mod writing;
mod wrong;

use crate::numbers::GOOD;
use crate::rng::Rng;
use crate::translate::{translate, Translation};
use draft::Draft;
use faults::Fault;

/// Names, a script, the count of the target's words, and what the translation
/// gives. Before it the target's words are those that its salt fills it with.
#[derive(Clone, Debug, PartialEq, Eq)]
pub struct Case {
    pub names: Vec<u8>,
    pub script: Vec<u8>,
    pub room: usize,
    pub salt: u16,
    pub translation: Translation,
}

impl Case {
    /// The case of two texts and a target, with what the model gives.
    pub fn judged(names: Vec<u8>, script: Vec<u8>, room: usize, salt: u16) -> Case {
        let translation = translate(&names, &script, room);
        Case { names, script, room, salt, translation }
    }
}

/// Two texts, the count of the target's words, and the translation by hand.
pub struct Special {
    pub names: Vec<u8>,
    pub script: Vec<u8>,
    pub room: usize,
    pub by_hand: Translation,
}

impl Special {
    /// The case, where the model must give what is written by hand.
    pub fn case(self, salt: u16) -> Case {
        let case = Case::judged(self.names, self.script, self.room, salt);
        let start = |text: &[u8]| String::from_utf8_lossy(&text[..text.len().min(200)]).into_owned();
        assert_eq!(
            case.translation,
            self.by_hand,
            "names {:?}, script {:?}, {} words",
            start(&case.names),
            start(&case.script),
            case.room
        );
        case
    }
}

/// All cases of a seed: those chosen by hand, every named fault twice, some
/// long texts, and `count` random good texts, each with others made from it.
pub fn collect(seed: u64, count: usize) -> Vec<Case> {
    let mut rng = Rng::new(seed);
    let faults = faults::all();
    let by_hand = special::all().into_iter().chain(large::stored());
    let mut cases: Vec<Case> = by_hand.map(|special| special.case(rng.word())).collect();
    for fault in &faults {
        cases.extend([named(&mut rng, fault), named(&mut rng, fault)]);
    }
    let later = faults::past_the_grammar();
    for _ in 0..count {
        cases.extend(family(&mut rng, &faults, &later));
    }
    cases
}

/// A named fault on the first random texts that can have it.
fn named(rng: &mut Rng, fault: &Fault) -> Case {
    loop {
        let draft = Draft::random(rng);
        if let Some(faulty) = fault.apply(rng, &draft) {
            return in_some_room(rng, faulty.bytes());
        }
    }
}

/// Random good texts in a target that fits and in another, and cases made from
/// them. The later faults are those of numbers 14 and 15.
pub fn family(rng: &mut Rng, faults: &[Fault], later: &[Fault]) -> Vec<Case> {
    let draft = Draft::random(rng);
    let [names, script] = draft.bytes();
    let words = needed(&names, &script).expect("the draft is good");
    let fitting = Case::judged(names.clone(), script.clone(), words, rng.word());
    let other = another(rng, words);
    let mut cases = vec![fitting, Case::judged(names, script, other, rng.word())];
    let made = [
        faults::any(rng, &draft, faults).bytes(),
        faults::any(rng, &draft, later).bytes(),
        faults::several(rng, &draft, faults).bytes(),
        faults::several(rng, &draft, later).bytes(),
        noise::with_byte_changed(rng, draft.bytes()),
        noise::with_byte_changed(rng, draft.bytes()),
        noise::with_line_moved(rng, draft.bytes()),
        [vec![], noise::salad(rng)],
        [noise::salad(rng), noise::any_bytes(rng)],
    ];
    cases.extend(made.map(|texts| in_some_room(rng, texts)));
    cases
}

/// How many words two texts give, if they are good.
fn needed(names: &[u8], script: &[u8]) -> Option<usize> {
    let translation = translate(names, script, usize::MAX);
    (translation.number == GOOD).then_some(translation.words.len())
}

/// Two texts in a target, which most often fits where they are good.
fn in_some_room(rng: &mut Rng, [names, script]: [Vec<u8>; 2]) -> Case {
    let words = needed(&names, &script).unwrap_or(rng.below(20));
    let room = if rng.percent(50) { words } else { another(rng, words) };
    Case::judged(names, script, room, rng.word())
}

/// A count of words that is another than this one, where that is not 0.
fn another(rng: &mut Rng, words: usize) -> usize {
    let (less, more) = (words.saturating_sub(1), words + rng.between(2, 30));
    *rng.pick(&[less, less, words / 2, 0, words + 1, more])
}

#[cfg(test)]
mod tests {
    use super::*;
    use std::collections::BTreeMap;

    /// The seed and count of the stored set.
    const STORED: (u64, usize) = (1984, 120);
    /// The least that the stored set has of each number in each text.
    const OFTEN: usize = 50;

    #[test]
    fn every_number_is_often_in_the_stored_set() {
        let mut numbers = BTreeMap::new();
        for case in collect(STORED.0, STORED.1) {
            let found = case.translation;
            *numbers.entry((found.number, found.text)).or_insert(0) += 1;
        }
        let refused = [(13, 0), (13, 1), (14, 0), (14, 1), (15, 0), (15, 1), (16, 1)];
        assert!(numbers.keys().copied().eq([(0, 65535)].into_iter().chain(refused)), "{numbers:?}");
        assert!(numbers.values().all(|&cases| cases >= OFTEN), "{numbers:?}");
    }

    #[test]
    fn an_answer_has_words_or_a_line_of_its_text() {
        for case in collect(6, 40) {
            let found = &case.translation;
            match (found.number, found.text) {
                (0, 65535) => assert_eq!((found.start, found.bytes), (0, 0)),
                (13..=15, 0) => assert_line(&case.names, found),
                (13..=16, 1) => assert_line(&case.script, found),
                other => panic!("a translation with {other:?}"),
            }
            assert!(found.words.len() <= case.room);
        }
    }

    /// The refused line stands between two ends of lines, and no words are
    /// given.
    fn assert_line(text: &[u8], found: &Translation) {
        let end = found.start + found.bytes;
        assert!(found.start == 0 || text[found.start - 1] == b'\n');
        assert!(end == text.len() || text[end] == b'\n');
        assert!(!text[found.start..end].contains(&b'\n'));
        assert_eq!(found.words, []);
    }

    #[test]
    fn the_same_seed_gives_the_same_cases() {
        assert!(collect(7, 3) == collect(7, 3));
        assert!(collect(7, 3) != collect(8, 3));
    }
}
