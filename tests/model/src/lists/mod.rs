//! The cases of printing: which lists of words and which buffers the file of
//! vectors holds.

pub mod limits;
pub mod random;
mod special;
pub mod sweep;

use crate::numbers::GOOD;
use crate::printing::{print, size};
use crate::rng::Rng;

/// A list of words, the count of a buffer's bytes, what the print gives, and
/// what the size call gives. Before it the buffer's bytes are those of
/// `filled`.
#[derive(Clone, Debug, PartialEq, Eq)]
pub struct Case {
    pub words: Vec<u16>,
    pub room: usize,
    pub salt: u16,
    /// 0, or 16 where the print is refused.
    pub number: u16,
    /// The text; empty where the print is refused.
    pub text: Vec<u8>,
    /// 0, or 16 where the list is too long.
    pub size_number: u16,
    /// How many bytes the text needs; 0 where the list is too long.
    pub needed: usize,
}

impl Case {
    /// The case of a list and a buffer, with what the model gives.
    pub fn judged(words: Vec<u16>, room: usize, salt: u16) -> Case {
        let (number, text) = match print(&words, room) {
            Ok(text) => (GOOD, text),
            Err(number) => (number, vec![]),
        };
        let (size_number, needed) = match size(&words) {
            Ok(needed) => (GOOD, needed),
            Err(number) => (number, 0),
        };
        Case { words, room, salt, number, text, size_number, needed }
    }

    /// A list in a buffer that its text fills.
    fn fitting(words: Vec<u16>, salt: u16) -> Case {
        let room = size(&words).expect("a list that is not too long");
        Case::judged(words, room, salt)
    }
}

/// A list, the count of the buffer's bytes, and the text by hand, if it is
/// printed.
pub struct Special {
    pub words: Vec<u16>,
    pub room: usize,
    pub by_hand: Option<Vec<u8>>,
}

impl Special {
    /// The case, where the model must give what is written by hand.
    pub fn case(self, salt: u16) -> Case {
        let case = Case::judged(self.words, self.room, salt);
        let start = &case.words[..case.words.len().min(20)];
        let given = (case.number == GOOD).then_some(&case.text);
        assert!(given == self.by_hand.as_ref(), "{start:?} in {} bytes", case.room);
        case
    }
}

/// The bytes of a buffer before its print.
pub fn filled(bytes: usize, salt: u16) -> Vec<u8> {
    (0..bytes).map(|k| (k * 31 + usize::from(salt)).to_le_bytes()[0]).collect()
}

/// All cases of a seed: those chosen by hand, every word at the start of a
/// line, lists at the limits, and `count` times some random lists.
pub fn collect(seed: u64, count: usize) -> Vec<Case> {
    let mut rng = Rng::new(seed);
    let by_hand = special::all().into_iter().chain(limits::stored());
    let mut cases: Vec<Case> = by_hand.map(|special| special.case(rng.word())).collect();
    cases.extend(sweep::all(&mut rng));
    for _ in 0..count {
        cases.extend(family(&mut rng));
    }
    cases
}

/// Random lists of every sort, each in a buffer that its text fills and in
/// another.
pub fn family(rng: &mut Rng) -> Vec<Case> {
    random::lists(rng).into_iter().flat_map(|words| in_two_rooms(rng, words)).collect()
}

/// A list in a buffer that its text fills, and in another.
pub fn in_two_rooms(rng: &mut Rng, words: Vec<u16>) -> [Case; 2] {
    let fitting = Case::fitting(words.clone(), rng.word());
    let other = another(rng, fitting.room);
    [fitting, Case::judged(words, other, rng.word())]
}

/// A count of bytes that is another than this one, where that is not 0.
fn another(rng: &mut Rng, bytes: usize) -> usize {
    let (less, more) = (bytes.saturating_sub(1), bytes + rng.between(2, 300));
    *rng.pick(&[less, less, bytes / 2, bytes.min(1), 0, bytes + 1, more, more])
}

#[cfg(test)]
mod tests {
    use super::*;

    /// The seed and count of the stored set.
    const STORED: (u64, usize) = (1984, 120);
    /// The least that the stored set has of each number.
    const OFTEN: usize = 100;

    #[test]
    fn every_number_is_often_in_the_stored_set() {
        let cases = collect(STORED.0, STORED.1);
        let of = |number| cases.iter().filter(|case| case.number == number).count();
        let (good, refused) = (of(0), of(16));
        assert_eq!(good + refused, cases.len());
        assert!(good >= OFTEN && refused >= OFTEN, "{good} and {refused}");
    }

    #[test]
    fn the_size_call_and_the_print_agree() {
        for case in collect(6, 20) {
            let fits = case.size_number == 0 && case.needed <= case.room;
            assert_eq!(case.number == 0, fits);
            assert_eq!(case.text.len(), if fits { case.needed } else { 0 });
            assert!(case.size_number == 0 || case.needed == 0);
        }
    }

    #[test]
    fn a_buffer_is_filled_by_its_salt() {
        assert_eq!(filled(0, 9), []);
        assert_eq!(filled(4, 65530), [250, 25, 56, 87]);
        assert_eq!(filled(10, 1)[8..], [249, 24]);
    }

    #[test]
    fn the_same_seed_gives_the_same_cases() {
        assert!(collect(7, 3) == collect(7, 3));
        assert!(collect(7, 3) != collect(8, 3));
    }
}
