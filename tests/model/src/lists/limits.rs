//! Lists at the limit of their words, with their texts by hand, and random
//! long ones.

use super::{random, Special};
use crate::printing::MOST_WORDS;
use crate::rng::Rng;

/// More than a word counts.
const WORD_END: usize = 65536;

/// The first word of `load r1`, and that of the order with the longest line.
const LOAD: u16 = 272;
const REMAINDER: u16 = 2423;

/// The lists that the file of vectors holds: each is one part again and again.
pub fn stored() -> Vec<Special> {
    let mut all = vec![
        repeated(&[0], "0\n", MOST_WORDS, 0),
        repeated(&[0], "0\n", MOST_WORDS, 70),
        repeated(&[65535], "65535\n", MOST_WORDS, 0),
        repeated(&[REMAINDER], "remainder r7 r7\n", MOST_WORDS, 0),
        repeated(&[LOAD, 7], "load r1 7\n", MOST_WORDS - 1, 0),
        refused(&[0], MOST_WORDS, 2 * MOST_WORDS - 1),
        refused(&[0], MOST_WORDS, 0),
        refused(&[REMAINDER], MOST_WORDS, 16 * MOST_WORDS - 1),
        refused(&[REMAINDER], MOST_WORDS, (16 * MOST_WORDS) % WORD_END),
    ];
    for words in [MOST_WORDS + 1, WORD_END, WORD_END + 1, WORD_END + MOST_WORDS] {
        all.extend([0, 2 * words, 200_000].map(|room| refused(&[0], words, room)));
    }
    all
}

/// Every list at the limit that is chosen by hand.
pub fn all() -> Vec<Special> {
    let lone = |part: &[u16], line: &str, last: u16| {
        let before = MOST_WORDS - 1;
        let mut words = again(part, before);
        words.push(last);
        let text = [line.repeat(before / part.len()), format!("{last}\n")].concat();
        Special { words, room: text.len(), by_hand: Some(text.into()) }
    };
    let own = vec![
        lone(&[LOAD, 7], "load r1 7\n", LOAD),
        lone(&[LOAD, LOAD], "load r1 272\n", 65535),
        lone(&[0], "0\n", LOAD),
        lone(&[REMAINDER], "remainder r7 r7\n", 4096),
        refused(&[LOAD, 7], MOST_WORDS + 1, 400_000),
        refused(&[LOAD], MOST_WORDS + 2, 400_000),
        refused(&[REMAINDER], 2 * WORD_END, 70_000),
    ];
    [stored(), own].into_iter().flatten().collect()
}

/// So many words, a part again and again, each part one line, in a buffer with
/// so many bytes more than the text has.
fn repeated(part: &[u16], line: &str, words: usize, more: usize) -> Special {
    let text = line.repeat(words / part.len());
    Special { words: again(part, words), room: text.len() + more, by_hand: Some(text.into()) }
}

/// The same, where the buffer is too small or the list too long.
fn refused(part: &[u16], words: usize, room: usize) -> Special {
    Special { words: again(part, words), room, by_hand: None }
}

/// So many words, a part again and again.
fn again(part: &[u16], words: usize) -> Vec<u16> {
    part.iter().copied().cycle().take(words).collect()
}

/// A random list near the limit, never over it.
pub fn random(rng: &mut Rng) -> Vec<u16> {
    let most = MOST_WORDS - rng.below(3);
    random::mixed(rng, most)
}

#[cfg(test)]
mod tests {
    use super::*;

    #[test]
    fn every_list_gives_the_text_that_is_written_beside_it() {
        all().into_iter().for_each(|special| _ = special.case(0));
    }
}
