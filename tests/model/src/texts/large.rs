//! Long texts: at the limit of names and labels, and of more words than 65535,
//! each with its translation by hand; and random ones of thousands of lines.

use super::special::{accepted, refused};
use super::{Case, Special};
use crate::numbers::{GRAMMAR, NAME, ROOM, VALUE};
use crate::rng::Rng;
use crate::translate::{NAMES, SCRIPT};

/// The bytes that follow the first in the names below.
const FOLLOWING: &[u8; 32] = b"abcdefghijklmnopqrstuvwxyz012345";

/// The most lines of each random long text.
const MOST_LINES: usize = 4000;

/// The long texts that the file of vectors holds.
pub fn stored() -> Vec<Special> {
    vec![
        split_limit(),
        Special { names: given(0..8193, " =0 "), script: vec![], room: 5, by_hand: refused(GRAMMAR, NAMES, 65536, 7) },
        Special { names: vec![], script: b"a:\n".repeat(8193), room: 0, by_hand: refused(GRAMMAR, SCRIPT, 24576, 2) },
        blank_lines(),
    ]
}

/// Every long text chosen by hand.
pub fn all() -> Vec<Special> {
    [stored(), limits(), past_the_words(), rooms()].into_iter().flatten().collect()
}

/// A name of three bytes that is no kept word, another for each number.
fn name(number: usize) -> Vec<u8> {
    let first = b"ghijklmno"[number / 1024];
    vec![first, FOLLOWING[number / 32 % 32], FOLLOWING[number % 32]]
}

/// A line for each of these names: the name, then the same bytes.
fn given(numbers: std::ops::Range<usize>, end: &str) -> Vec<u8> {
    numbers.flat_map(|number| [&name(number), end.as_bytes(), b"\n"].concat()).collect()
}

/// As many names and labels as there may be, and words that use the first and
/// the last.
fn split_limit() -> Special {
    let mut script = given(4096..8191, ":");
    script.extend(b"return\nzz: zz\ngaa+");
    script.extend(name(8190));
    let names = [b"gaa=9\n".to_vec(), given(1..4096, "=0")].concat();
    Special { names, script, room: 4, by_hand: accepted(&[4352, 1, 9]) }
}

/// Thousands of lines without anything, and one with an order.
fn blank_lines() -> Special {
    let script = [b"\n".repeat(3000), b"return\n".to_vec()].concat();
    Special { names: b"\n".repeat(3000), script, room: 0, by_hand: refused(ROOM, SCRIPT, 3000, 6) }
}

/// Names and labels at their limit and one more, split in other ways, and with
/// names given twice.
fn limits() -> Vec<Special> {
    let twice = |lines: usize| [b"gaa=0\n".to_vec(), given(0..lines - 1, "=0")].concat();
    let row = |names: Vec<u8>, script: Vec<u8>, by_hand| Special { names, script, room: 0, by_hand };
    vec![
        row(given(0..8192, "=0"), vec![], accepted(&[])),
        row(given(0..8193, "=0"), vec![], refused(GRAMMAR, NAMES, 49152, 5)),
        row(vec![], given(0..8192, ":"), accepted(&[])),
        row(vec![], given(0..8193, ":"), refused(GRAMMAR, SCRIPT, 40960, 4)),
        row(given(0..8192, "=0"), b"return\nzz:".to_vec(), refused(GRAMMAR, SCRIPT, 7, 3)),
        row(given(0..8192, "=0"), b"return\nzz:A".to_vec(), refused(GRAMMAR, SCRIPT, 7, 4)),
        row(given(0..8192, "=0"), b"zz".to_vec(), refused(NAME, SCRIPT, 0, 2)),
        row(given(0..8191, "=0"), b"zz:\nyy:".to_vec(), refused(GRAMMAR, SCRIPT, 4, 3)),
        row(given(0..8191, "=0"), b"zz:\nzz:".to_vec(), refused(GRAMMAR, SCRIPT, 4, 3)),
        row(given(0..8190, "=0"), b"zz:\nzz:".to_vec(), refused(NAME, SCRIPT, 4, 3)),
        row(given(0..8191, "=0"), b"zz:\ngaa".to_vec(), refused(ROOM, SCRIPT, 4, 3)),
        row(b"gaa=0\n".to_vec(), given(1..8192, ":"), accepted(&[])),
        row(b"gaa=0\n".to_vec(), given(1..8193, ":"), refused(GRAMMAR, SCRIPT, 40955, 4)),
        row(twice(8192), vec![], refused(NAME, NAMES, 6, 5)),
        row(twice(8193), vec![], refused(GRAMMAR, NAMES, 49152, 5)),
        row(b"a=0\n".repeat(8192), vec![], refused(NAME, NAMES, 4, 3)),
        row(b"a=0\n".repeat(8193), vec![], refused(GRAMMAR, NAMES, 32768, 3)),
        row(vec![], b"a:\n".repeat(8192), refused(NAME, SCRIPT, 3, 2)),
        row(b"; a\n\n".repeat(9000), b"\n; b:\n".repeat(9000), accepted(&[])),
    ]
}

/// Labels at word 65535 and past it, used and not used.
fn past_the_words() -> Vec<Special> {
    let zeros = |count: usize| b"0\n".repeat(count);
    let calls = |count: usize| b"call 0\n".repeat(count);
    let row = |parts: &[&[u8]], by_hand| Special { names: vec![], script: parts.concat(), room: 70000, by_hand };
    let mut last = vec![0; 65535];
    last.extend([3584, 65535]);
    let mut many_calls = [4096, 0].repeat(32768);
    many_calls.extend([4352, 7]);
    let mut first = vec![3584, 65534];
    first.extend([4096, 0].repeat(32766));
    vec![
        row(&[&zeros(65535), b"here: jump here\n"], accepted(&last)),
        row(&[&zeros(65536), b"here:\n"], accepted(&[0; 65536])),
        row(&[&zeros(65536), b"here: 7 - here\n"], refused(VALUE, SCRIPT, 131072, 14)),
        row(&[b"jump here\n", &zeros(65534), b"here:"], refused(VALUE, SCRIPT, 0, 9)),
        row(&[b"jump here\n", &calls(32766), b"here:"], accepted(&first)),
        row(&[b"jump here\n", &calls(32767), b"here:"], refused(VALUE, SCRIPT, 0, 9)),
        row(&[&calls(32768), b"here: return\nthere: 7"], accepted(&many_calls)),
        row(&[&calls(32768), b"a:\n2 * a\n"], refused(VALUE, SCRIPT, 229379, 5)),
        row(&[&calls(32768), b"a:\n0 * a\n"], refused(VALUE, SCRIPT, 229379, 5)),
        row(&[b"1-2\n", &zeros(65535), b"a:\na\nb"], refused(NAME, SCRIPT, 131079, 1)),
    ]
}

/// More than 65535 words in targets of any size.
fn rooms() -> Vec<Special> {
    let row = |words: usize, room, by_hand| Special { names: vec![], script: b"7\n".repeat(words), room, by_hand };
    vec![
        row(65536, 65536, accepted(&[7; 65536])),
        row(65537, 65537, accepted(&[7; 65537])),
        row(65537, 65540, accepted(&[7; 65537])),
        row(65537, 65536, refused(ROOM, SCRIPT, 131072, 1)),
        row(65537, 1, refused(ROOM, SCRIPT, 131072, 1)),
        row(65536, 0, refused(ROOM, SCRIPT, 131070, 1)),
        row(65536, 65535, refused(ROOM, SCRIPT, 131070, 1)),
        row(1, 65536, accepted(&[7])),
    ]
}

/// Thousands of lines, each name one more than the name above it, in some of
/// which one line is wrong.
pub fn random(rng: &mut Rng) -> Case {
    let [names, lines] = [(); 2].map(|()| rng.between(1, MOST_LINES));
    let more = |number| [&name(number), &b"="[..], &name(number - 1), b"+1"].concat();
    let above = std::iter::once(b"gaa = 0".to_vec()).chain((1..names).map(more)).collect();
    let script = (0..lines).map(|number| script_line(rng, names, names + number)).collect();
    let mut texts: [Vec<Vec<u8>>; 2] = [above, script];
    if rng.percent(60) {
        let text = &mut texts[rng.below(2)];
        let place = rng.below(text.len());
        text[place] = rng.pick(&[&b"A"[..], b"xx = yy", b"yy", b"65536", b"zz=0-1"]).to_vec();
    }
    let [names, script] = texts.map(|lines| lines.join(&b'\n'));
    let room = *rng.pick(&[2 * lines, 2 * lines, lines, 0]);
    Case::judged(names, script, room, rng.word())
}

/// A label of its own, or a line that uses one of the first names.
fn script_line(rng: &mut Rng, names: usize, own: usize) -> Vec<u8> {
    let used = name(rng.below(names));
    match rng.below(6) {
        0 => [&name(own), &b":"[..]].concat(),
        1 => [b"load r1 ", &used[..]].concat(),
        2 => [b"jumpeq ", &used[..]].concat(),
        3 => [b"2*", &used[..]].concat(),
        _ => used,
    }
}

#[cfg(test)]
mod tests {
    use super::*;
    use std::collections::BTreeSet;

    #[test]
    fn every_long_text_gives_what_is_written_beside_it() {
        all().into_iter().for_each(|special| _ = special.case(0));
    }

    #[test]
    fn no_two_names_are_the_same() {
        let names: BTreeSet<Vec<u8>> = (0..9216).map(name).collect();
        assert_eq!(names.len(), 9216);
    }

    #[test]
    fn random_long_texts_are_often_accepted() {
        let mut rng = Rng::new(3);
        let numbers: Vec<u16> = (0..60).map(|_| random(&mut rng).translation.number).collect();
        let of = |number| numbers.iter().filter(|&&other| other == number).count();
        assert!(of(0) >= 10 && [13, 14, 15, 16].iter().all(|&number| of(number) >= 1), "{numbers:?}");
    }
}
