//! The page's example, each order, what is no order, the refusals, and that
//! every text translates back.

use super::{print, print_size};
use crate::{translate, Printed};

/// The text of words in a buffer that is larger.
fn prints(words: &[u16], expected: &str) {
    let mut target = vec![7; expected.len() + 20];
    let printed = Printed { bytes: expected.len() as u64, number: 0 };
    assert_eq!(print(words, &mut target), printed, "{words:?}");
    assert_eq!(print_size(words), printed);
    let (text, after) = target.split_at(expected.len());
    assert_eq!(std::str::from_utf8(text), Ok(expected));
    assert!(after.iter().all(|byte| *byte == 7), "the bytes past the text stay");
}

#[test]
fn the_example() {
    prints(
        &[4656, 1076, 336, 19, 3381, 3856, 0, 4, 2],
        "input\nstore r3 r4\nload r5 19\ncompare r3 r5\njumplt 0\n4\n2\n",
    );
    prints(&[], "");
}

#[test]
fn every_order() {
    let two = "copy fetch store add subtract multiply quotient remainder and or xor compare";
    for (order, op) in two.split(' ').zip(2..) {
        prints(&[256 * op + 16 * 2 + 7], &format!("{order} r2 r7\n"));
    }
    prints(&[304, 9, 3584, 10], "load r3 9\njump 10\n");
    prints(&[3840, 5, 3856, 65535, 3872, 0, 4096, 256], "jumpeq 5\njumplt 65535\njumpgt 0\ncall 256\n");
    prints(&[4352, 4624, 4640, 4656, 4672], "return\nsend\nreceive\ninput\noutput\n");
}

#[test]
fn what_is_no_order() {
    prints(&[384, 257, 640, 520, 3585, 3600, 3888], "384\n257\n640\n520\n3585\n3600\n3888\n");
    prints(&[4097, 4112, 4353, 4608, 4688, 4848, 4625], "4097\n4112\n4353\n4608\n4688\n4848\n4625\n");
    prints(&[0, 9, 10, 99, 100, 255, 9999, 10000, 65535], "0\n9\n10\n99\n100\n255\n9999\n10000\n65535\n");
    prints(&[512, 256], "copy r0 r0\n256\n");
    prints(&[256, 256, 4096], "load r0 256\n4096\n");
}

#[test]
fn too_long() {
    let refused = Printed { bytes: 0, number: 16 };
    let mut target = [7; 8];
    assert_eq!(print(&[4656, 7], &mut target[..7]), refused);
    assert_eq!(target, [7; 8], "a refusal alters no byte");
    assert_eq!(print(&[4656, 7], &mut target), Printed { bytes: 8, number: 0 });
    assert_eq!(print_size(&[2423; 32715]), Printed { bytes: 523440, number: 0 });
    assert_eq!(print_size(&[0; 32716]), refused);
    assert_eq!(print(&[0; 32716], &mut [7; 70000]), refused);
}

#[test]
fn every_word_translates_back() {
    for word in 0..=u16::MAX {
        for words in [&[word][..], &[word, 272], &[4096, word]] {
            let mut target = [0; 32];
            let bytes = print(words, &mut target).bytes as usize;
            let mut back = [0; 2];
            let count = translate(&[], &target[..bytes], &mut back).words;
            assert_eq!((count, &back[..words.len()]), (words.len() as u64, words));
        }
    }
}
