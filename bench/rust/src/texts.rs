//! The translator of texts: a list of names and a script, to words.

mod lines;
mod sums;
#[cfg(test)]
mod tests;
mod tokens;

use crate::numbers;
use crate::Translated;
use lines::Lines;
use sums::Values;

/// How many names and labels two texts give at most.
const MOST_GIVEN: usize = 8192;

/// The texts, as a refusal names them, and what is said where nothing is refused.
const NAMES: u16 = 0;
const SCRIPT: u16 = 1;
const NO_TEXT: u16 = 65535;

/// A refusal and the line that it names.
#[derive(Clone, Copy, Debug, PartialEq, Eq)]
pub struct Refused {
    pub number: u16,
    /// 0 for the names, 1 for the script.
    pub text: u16,
    /// The place of the line's first byte in its text.
    pub start: usize,
    /// How many bytes the line has, without the byte that ends it.
    pub count: usize,
}

/// Translates two texts to words in the target. A refusal alters no word.
pub fn translate(names: &[u8], script: &[u8], target: &mut [u16]) -> Translated {
    match translate_or_name(names, script, target) {
        Ok(words) => Translated { words: words as u64, number: 0, text: NO_TEXT },
        Err(refused) => Translated { words: 0, number: refused.number, text: refused.text },
    }
}

/// The same, with how many words there are, or the refused line.
pub fn translate_or_name(names: &[u8], script: &[u8], target: &mut [u16]) -> Result<usize, Refused> {
    let in_names = |number| move |start| refused(number, NAMES, names, start);
    let in_script = |number| move |start| refused(number, SCRIPT, script, start);
    let names_lines = Lines::of_names(names, MOST_GIVEN).map_err(in_names(numbers::GRAMMAR))?;
    let left = MOST_GIVEN - names_lines.given.len();
    let mut script_lines = Lines::of_script(script, left).map_err(in_script(numbers::GRAMMAR))?;
    let mut values = Values::default();
    let large_name = values.give_names(&names_lines).map_err(in_names(numbers::NOT_GIVEN))?;
    let large_word = values.fill_words(&mut script_lines).map_err(in_script(numbers::NOT_GIVEN))?;
    if let Some(start) = large_name {
        return Err(in_names(numbers::TOO_LARGE)(start));
    }
    if let Some(start) = large_word {
        return Err(in_script(numbers::TOO_LARGE)(start));
    }
    let words = &script_lines.words;
    let room = target.get_mut(..words.len()).ok_or_else(|| in_script(numbers::NO_ROOM)(last_line(script)))?;
    room.copy_from_slice(words);
    Ok(words.len())
}

/// The refusal of the line that starts at a place.
fn refused(number: u16, text: u16, bytes: &[u8], start: usize) -> Refused {
    let rest = &bytes[start..];
    let count = rest.iter().position(|byte| *byte == b'\n').unwrap_or(rest.len());
    Refused { number, text, start, count }
}

/// Where the last line of a text starts.
fn last_line(text: &[u8]) -> usize {
    let ended = text.strip_suffix(b"\n").unwrap_or(text);
    ended.iter().rposition(|byte| *byte == b'\n').map_or(0, |end| end + 1)
}
