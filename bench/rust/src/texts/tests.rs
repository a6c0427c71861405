//! The page's example, and a text for each refusal.

use super::{translate, translate_or_name, Refused, NAMES, NO_TEXT, SCRIPT};
use crate::Translated;

const EXAMPLE_NAMES: &str = "size = 4\nlast = size * (2 + 3) - 1\n";
const EXAMPLE: &str =
    "loop: input\n store r3 r4\n load r5 last\n compare r3 r5\n jumplt loop\ntable: size\n\tloop + 2 ; A comment\r\n";

/// The words of two texts, or the number and the refused line.
fn outcome(names: &str, script: &str) -> Result<Vec<u16>, (u16, String)> {
    let mut target = [7; 16];
    match translate_or_name(names.as_bytes(), script.as_bytes(), &mut target) {
        Ok(count) => {
            assert!(target[count..].iter().all(|word| *word == 7), "the words past them stay");
            Ok(target[..count].to_vec())
        }
        Err(Refused { number, text, start, count }) => {
            assert_eq!(target, [7; 16], "a refusal alters no word");
            let bytes = if text == NAMES { names } else { script };
            Err((number, bytes[start..start + count].into()))
        }
    }
}

fn refuses(number: u16, line: &str, names: &str, script: &str) {
    assert_eq!(outcome(names, script), Err((number, line.into())), "{names:?}, {script:?}");
}

fn gives(words: &[u16], names: &str, script: &str) {
    assert_eq!(outcome(names, script), Ok(words.into()), "{names:?}, {script:?}");
}

#[test]
fn the_example() {
    gives(&[4656, 1076, 336, 19, 3381, 3856, 0, 4, 2], EXAMPLE_NAMES, EXAMPLE);
    let told = translate(EXAMPLE_NAMES.as_bytes(), EXAMPLE.as_bytes(), &mut [0; 9]);
    assert_eq!(told, Translated { words: 9, number: 0, text: NO_TEXT });
}

#[test]
fn every_order() {
    let two = "copy fetch store add subtract multiply quotient remainder and or xor compare";
    for (order, op) in two.split(' ').zip(2..) {
        gives(&[256 * op + 16 * 2 + 7], "", &format!("{order} r2 r7"));
    }
    gives(&[256 + 16 * 3, 9], "", "load r3 9");
    for (order, first) in [("jump", 3584), ("jumpeq", 3840), ("jumplt", 3856), ("jumpgt", 3872), ("call", 4096)] {
        gives(&[first, 5], "", &format!("{order} 5"));
    }
    gives(&[4352, 4624, 4640, 4656, 4672], "", "return\nsend\nreceive\ninput\noutput");
}

#[test]
fn outside_the_grammar() {
    for line in ["A", "_a", "1_", "load r8 1", "load r12", "send:", "finish", "negate: 1", "r0 + 1", "-1", "1 2", "a::"]
    {
        refuses(13, line, "", &format!("\n{line}\n"));
    }
    for line in ["a", "a =", "= 1", "a: 1", "add = 1", "a = r1", "a = (1", "a = 1)"] {
        refuses(13, line, line, "");
    }
    refuses(13, " ? ;x", "a = b", "1\n ? ;x");
    gives(&[1], "", "((((((((1))))))))");
    refuses(13, "(((((((((1)))))))))", "", "(((((((((1)))))))))");
}

#[test]
fn at_most_8192_are_given() {
    let names: String = (0..8190).map(|k| format!("n{k} = {k}\n")).collect();
    gives(&[8189], &names, "a: n8189\nb:");
    refuses(13, " a:", &names, "a:\nb:\n a:");
}

#[test]
fn not_given_or_given_again() {
    refuses(14, "a = a", "a = a", "");
    refuses(14, "a = b", "a = b\nb = 1", "b:");
    refuses(14, "a = 2 ", "a = 1\na = 2 ", "");
    refuses(14, "a:", "a = 1", "1\na:");
    refuses(14, "jump b", "", "a:\njump b\na:");
    refuses(14, "a: 2", "", "a: 65536\na: 2\njump b");
    gives(&[3584, 2], "", "jump a\na:");
}

#[test]
fn out_of_range() {
    refuses(15, "a = 65536", "a = 65536", "65536");
    refuses(15, "65535 * 2 * 0", "", "65535 * 2 * 0");
    gives(&[0], "", "0 * 2 * 65535");
    refuses(15, "1 - 2 + 1", "", "1 - 2 + 1");
    gives(&[1], "", "00000000000000000000001");
    let long = "0\n".repeat(65536);
    refuses(15, "b: a", "", &format!("{long}a:\n1\nb: a"));
    refuses(16, "b: 1", "", &format!("{long}a:\n1\nb: 1"));
}

#[test]
fn no_room() {
    let told = |script: &str, room: usize| translate_or_name(b"", script.as_bytes(), &mut vec![0; room]);
    assert_eq!(told("1\n2\n \n", 1), Err(Refused { number: 16, text: SCRIPT, start: 4, count: 1 }));
    assert_eq!(told("1\n2\n\n", 1), Err(Refused { number: 16, text: SCRIPT, start: 4, count: 0 }));
    assert_eq!(told("1\n2\n", 1), Err(Refused { number: 16, text: SCRIPT, start: 2, count: 1 }));
    assert_eq!(told("1\n2\n", 2), Ok(2));
    assert_eq!(told("", 0), Ok(0));
}
