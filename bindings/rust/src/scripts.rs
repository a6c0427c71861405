//! The calls on texts: a script is translated to words, and words are printed as a script.

use crate::{c, count, known, unless_refused, Refusal};
use std::fmt;

/// The most names and labels that the two texts of a translation may give together.
pub const MOST_NAMES: usize = 8192;

/// The most words of a list that is printed: those of the longest segment.
pub const MOST_PRINTED: usize = 32715;

/// The two texts of a translation.
#[derive(Clone, Copy, Debug, PartialEq, Eq, Hash)]
pub enum Text {
    /// The list of names.
    Names,
    /// The script.
    Script,
}

impl fmt::Display for Text {
    fn fmt(&self, to: &mut fmt::Formatter<'_>) -> fmt::Result {
        to.pad(match self {
            Text::Names => "names",
            Text::Script => "script",
        })
    }
}

/// Why a script is not translated. [`refused_line`] gives the line.
#[derive(Clone, Copy, Debug, PartialEq, Eq, Hash)]
#[must_use]
pub struct Untranslated {
    /// 13 to 16: [`Refusal::OutsideGrammar`] to [`Refusal::NoRoom`].
    pub refusal: Refusal,
    /// The text that the refused line stands in.
    pub text: Text,
}

impl fmt::Display for Untranslated {
    fn fmt(&self, to: &mut fmt::Formatter<'_>) -> fmt::Result {
        write!(to, "{}: {}", self.text, self.refusal)
    }
}

impl std::error::Error for Untranslated {}

/// Translates a script with its list of names to words in the target, from its first on; the words past them stay as
/// they are. Answers how many words the script has.
///
/// # Errors
///
/// Of all refused lines the one with the lowest number is told, and of those with that number the first, the names
/// before the script; with [`Refusal::NoRoom`] it is the script's last line. No word of the target is changed then.
pub fn translate(names: &[u8], script: &[u8], target: &mut [u16]) -> Result<usize, Untranslated> {
    // SAFETY: as lib.rs says.
    let told = unsafe {
        c::kernel_translate(
            names.as_ptr(),
            names.len(),
            script.as_ptr(),
            script.len(),
            target.as_mut_ptr(),
            target.len(),
        )
    };
    unless_refused(told.number, count(told.words))
        .map_err(|refusal| Untranslated { refusal, text: known(text_with_number(told.text)) })
}

/// The text with a number of the archive's, where a line is refused.
fn text_with_number(number: u16) -> Option<Text> {
    match number {
        c::NAMES => Some(Text::Names),
        c::SCRIPT => Some(Text::Script),
        _ => None,
    }
}

/// The line that [`translate`] refuses with a target of so many words, as the part of its text, without the byte 10
/// that ends it. `None` where no line is refused.
#[must_use]
pub fn refused_line<'a>(names: &'a [u8], script: &'a [u8], room: usize) -> Option<&'a [u8]> {
    // SAFETY: as lib.rs says.
    let line =
        unsafe { c::kernel_refused_line(names.as_ptr(), names.len(), script.as_ptr(), script.len(), room as u64) };
    let (start, bytes) = (count(line.start), count(line.bytes));
    // An empty line is refused only for want of room, as the last of a script with words before it: never at the start.
    let refused = (start, bytes) != (0, 0);
    refused.then(|| &text_at_fault(names, script)[start..start + bytes])
}

/// The text of the refused line. Without room every text that is refused at all is, and a line of the names whatever
/// the room is.
fn text_at_fault<'a>(names: &'a [u8], script: &'a [u8]) -> &'a [u8] {
    match translate(names, script, &mut []) {
        Err(Untranslated { text: Text::Names, .. }) => names,
        _ => script,
    }
}

/// Prints a list of words in the buffer, from its first byte on, as the script that [`translate`] gives these words
/// for, without names; the bytes past it stay as they are. Answers how many bytes the text has. 16 bytes for each word
/// always suffice.
///
/// # Errors
///
/// [`Refusal::NoRoom`] where the list has over [`MOST_PRINTED`] words, or its text more bytes than the buffer. No byte
/// of the buffer is changed then.
pub fn print(words: &[u16], text: &mut [u8]) -> Result<usize, Refusal> {
    // SAFETY: as lib.rs says.
    let told = unsafe { c::kernel_print(words.as_ptr(), words.len(), text.as_mut_ptr(), text.len()) };
    unless_refused(told.number, count(told.bytes))
}

/// How many bytes [`print()`] needs for a list of words.
///
/// # Errors
///
/// [`Refusal::NoRoom`] where the list has over [`MOST_PRINTED`] words.
pub fn print_size(words: &[u16]) -> Result<usize, Refusal> {
    // SAFETY: as lib.rs says.
    let told = unsafe { c::kernel_print_size(words.as_ptr(), words.len()) };
    unless_refused(told.number, count(told.bytes))
}
