//! The words in which an image differs from an earlier one.

use crate::layout::word;

/// A place of an image, and the word that it then holds.
pub type Change = (u16, u16);

/// Each place at which the words differ, with its later word.
pub fn differences(before: &[u16], after: &[u16]) -> Vec<Change> {
    let pairs = before.iter().zip(after).enumerate();
    let changed = pairs.filter(|(_, (old, new))| old != new);
    changed.map(|(place, (_, &new))| (word(place), new)).collect()
}
