//! Lists chosen by hand, with their texts.

use super::Special;

/// The page's example and its text.
const EXAMPLE: [u16; 9] = [4656, 1076, 336, 19, 3381, 3856, 0, 4, 2];
const EXAMPLE_TEXT: &str = "input\nstore r3 r4\nload r5 19\ncompare r3 r5\njumplt 0\n4\n2\n";

/// The names of ops 2 to 13.
const OF_REGISTERS: [&str; 12] =
    ["copy", "fetch", "store", "add", "subtract", "multiply", "quotient", "remainder", "and", "or", "xor", "compare"];

/// Lists and their texts.
const ROWS: [(&[u16], &str); 21] = [
    (&[], ""),
    // The other orders, with the least and the greatest of their operands.
    (&[256, 0, 368, 65535], "load r0 0\nload r7 65535\n"),
    (&[3584, 1, 4096, 20], "jump 1\ncall 20\n"),
    (&[3840, 300, 3856, 4000, 3872, 50000], "jumpeq 300\njumplt 4000\njumpgt 50000\n"),
    (&[4352, 4624, 4640, 4656, 4672], "return\nsend\nreceive\ninput\noutput\n"),
    // A second word is a number, whatever it could begin.
    (&[256, 256, 256, 4656, 512], "load r0 256\nload r0 4656\ncopy r0 r0\n"),
    // A register over 7 as a and as b.
    (&[384, 1, 496, 1], "384\n1\n496\n1\n"),
    (&[640, 752, 520, 527, 3456, 3336], "640\n752\n520\n527\n3456\n3336\n"),
    // A field that the order does not use, and condition 3.
    (&[257, 1, 271, 1], "257\n1\n271\n1\n"),
    (&[3585, 1, 3600, 1], "3585\n1\n3600\n1\n"),
    (&[3841, 1, 3887, 1, 3888, 1, 4080, 1], "3841\n1\n3887\n1\n3888\n1\n4080\n1\n"),
    (&[4097, 1, 4112, 1], "4097\n1\n4112\n1\n"),
    (&[4353, 4368, 4625, 4687], "4353\n4368\n4625\n4687\n"),
    // Services 0, 5, 6 and 15.
    (&[4608, 4688, 4704, 4848], "4608\n4688\n4704\n4848\n"),
    // Ops that are not known; some are orders of later editions.
    (&[0, 1, 255, 4864, 5120, 1, 5376, 1], "0\n1\n255\n4864\n5120\n1\n5376\n1\n"),
    (&[5632, 5888, 6144, 32768, 65535], "5632\n5888\n6144\n32768\n65535\n"),
    // Numbers of one to five digits.
    (&[9, 10, 99, 100, 6200, 9999, 10000, 65534], "9\n10\n99\n100\n6200\n9999\n10000\n65534\n"),
    // Second words of one to five digits.
    (&[3584, 9, 3584, 10, 3584, 99, 3584, 100], "jump 9\njump 10\njump 99\njump 100\n"),
    (&[272, 999, 272, 1000, 272, 9999, 272, 10000], "load r1 999\nload r1 1000\nload r1 9999\nload r1 10000\n"),
    // A lone first word after others.
    (&[512, 3872], "copy r0 r0\n3872\n"),
    (&[3584, 4096, 4096], "jump 4096\n4096\n"),
];

/// Every list chosen by hand: the example in buffers of several sizes, the
/// others in buffers that fit and that are larger.
pub fn all() -> Vec<Special> {
    let needed = EXAMPLE_TEXT.len();
    let larger = [needed, needed + 1, needed + 300, 65536 + needed];
    let smaller = [0, 1, 6, needed - 1];
    let mut all: Vec<Special> = larger.map(|room| row(&EXAMPLE, EXAMPLE_TEXT, room)).into();
    all.extend(smaller.map(|room| Special { words: EXAMPLE.into(), room, by_hand: None }));
    for (words, text) in ROWS {
        all.extend([0, 1, 40].map(|more| row(words, text, text.len() + more)));
    }
    all.extend(OF_REGISTERS.iter().zip(2..).map(|(name, op)| registers(name, op)));
    all
}

fn row(words: &[u16], text: &str, room: usize) -> Special {
    Special { words: words.into(), room, by_hand: Some(text.into()) }
}

/// Each pair of registers in an order of two.
fn registers(name: &str, op: u16) -> Special {
    let pairs: Vec<(u16, u16)> = (0..8).flat_map(|a| (0..8).map(move |b| (a, b))).collect();
    let words: Vec<u16> = pairs.iter().map(|(a, b)| 256 * op + 16 * a + b).collect();
    let text: String = pairs.iter().map(|(a, b)| format!("{name} r{a} r{b}\n")).collect();
    row(&words, &text, text.len())
}

#[cfg(test)]
mod tests {
    use super::*;

    #[test]
    fn every_list_gives_the_text_that_is_written_beside_it() {
        all().into_iter().for_each(|special| _ = special.case(0));
    }
}
