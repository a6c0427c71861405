//! Every one of the 65,536 words at the start of a line.

use super::Case;
use crate::layout::word;
use crate::printing::takes_two;
use crate::rng::Rng;
use std::ops::RangeInclusive;

/// How many neighbouring words stand in one list of the file.
const NEIGHBOURS: usize = 2048;

/// Every word at the start of a line with another word after it, and each that
/// begins two words as the last.
pub fn all(rng: &mut Rng) -> Vec<Case> {
    let every: Vec<u16> = (0..=u16::MAX).collect();
    let mut lists: Vec<Vec<u16>> = every.chunks(NEIGHBOURS).map(|words| starts(rng, words)).collect();
    for &first in every.iter().filter(|&&first| takes_two(first)) {
        lists.extend([vec![first], vec![rng.word(), first, rng.word(), first]]);
    }
    lists.into_iter().map(|words| Case::fitting(words, rng.word())).collect()
}

/// Some neighbouring words, each at the start of a line.
pub fn some(rng: &mut Rng, count: usize) -> Vec<u16> {
    let first = rng.below(65536 - count);
    let words: RangeInclusive<u16> = word(first)..=word(first + count);
    starts(rng, &words.collect::<Vec<_>>())
}

/// These words, each at the start of a line and none the last: any word stands
/// after each that begins two, and after all.
fn starts(rng: &mut Rng, words: &[u16]) -> Vec<u16> {
    let mut list = Vec::new();
    for &first in words {
        list.push(first);
        if takes_two(first) {
            list.push(rng.word());
        }
    }
    list.push(rng.word());
    list
}

#[cfg(test)]
mod tests {
    use super::*;
    use crate::printing::MOST_WORDS;

    /// The words of a list that stand at the start of a line, the last left
    /// out.
    fn at_starts(list: &[u16]) -> Vec<u16> {
        let mut left = list;
        let mut found = Vec::new();
        while let [first, _, ..] = left {
            found.push(*first);
            left = &left[if takes_two(*first) { 2 } else { 1 }..];
        }
        found
    }

    #[test]
    fn every_word_is_at_the_start_of_a_line() {
        let cases = all(&mut Rng::new(4));
        let (sweep, lone) = cases.split_at(65536 / NEIGHBOURS);
        assert!(sweep.iter().flat_map(|case| at_starts(&case.words)).eq(0..=u16::MAX));
        assert_eq!(lone.len(), 2 * 13);
        assert!(lone.iter().all(|case| case.words.last().is_some_and(|&last| takes_two(last))));
        assert!(cases.iter().all(|case| case.words.len() <= MOST_WORDS && case.number == 0));
    }

    #[test]
    fn some_neighbours_stand_at_the_starts() {
        let mut rng = Rng::new(4);
        for count in [1, 300] {
            let starts = at_starts(&some(&mut rng, count));
            assert!(starts.windows(2).all(|pair| pair[0] + 1 == pair[1]));
            assert_eq!(starts.len(), count + 1);
        }
    }
}
