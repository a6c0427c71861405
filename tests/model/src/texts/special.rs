//! Texts chosen by hand, each with its translation.

use super::{wrong, Special};
use crate::numbers::{GOOD, GRAMMAR, NAME, ROOM, VALUE};
use crate::translate::{Translation, NAMES, NO_TEXT, SCRIPT};

/// Names, a script, and the script's words.
type Good = (&'static str, &'static str, &'static [u16]);

/// Names, a script, the target's words, and the refusal: number, text, start
/// and bytes of the line.
type Refused = (&'static str, &'static str, usize, (u16, u16, usize, usize));

const PAPERS_NAMES: &str = "size = 4\nlast = size * (2 + 3) - 1\n";
const PAPERS_SCRIPT: &str = "loop: input\n      store r3 r4\n      load r5 last\n      \
                             compare r3 r5\n      jumplt loop\ntable: size\n      loop + 2\n";
const PAPERS_WORDS: [u16; 9] = [4656, 1076, 336, 19, 3381, 3856, 0, 4, 2];

/// What an accepted text gives.
pub fn accepted(words: &[u16]) -> Translation {
    Translation { number: GOOD, text: NO_TEXT, start: 0, bytes: 0, words: words.to_vec() }
}

/// What a refused text gives.
pub fn refused(number: u16, text: u16, start: usize, bytes: usize) -> Translation {
    Translation { number, text, start, bytes, words: vec![] }
}

/// Every text chosen by hand, the page's first.
pub fn all() -> Vec<Special> {
    let groups = [
        papers(),
        good(),
        orders(),
        comments(),
        numbers(),
        long_names(),
        names_lines(),
        script_lines(),
        sums(),
        refusals(),
        rooms(),
    ];
    groups.into_iter().flatten().collect()
}

/// The page's example in targets of every size that decides.
fn papers() -> Vec<Special> {
    let in_room = |room| Special {
        names: PAPERS_NAMES.into(),
        script: PAPERS_SCRIPT.into(),
        room,
        by_hand: match room {
            0..=8 => refused(ROOM, SCRIPT, 99, 14),
            _ => accepted(&PAPERS_WORDS),
        },
    };
    [9, 8, 10, 0, 1, 7, 100].map(in_room).into()
}

/// Good texts with their words.
fn good() -> Vec<Special> {
    GOOD_TEXTS
        .map(|(names, script, words)| Special {
            names: names.into(),
            script: script.into(),
            room: words.len() + 3,
            by_hand: accepted(words),
        })
        .into()
}

const GOOD_TEXTS: [Good; 40] = [
    ("", "", &[]),
    ("\n", "", &[]),
    ("", "\n", &[]),
    ("\n\n\n", "\n\n", &[]),
    (" \t\r", "\r\n\t\n ", &[]),
    ("; q = 65536", ";", &[]),
    ("a = 1", "a", &[1]),
    ("a = 1\n", "a\n", &[1]),
    ("a=1\r\nb=a+a\r\n", "b\r\na\r\n", &[2, 1]),
    ("\ta\t=\t1\t", "\ta\t+\t1\t", &[2]),
    ("a\r=\r1", "b\r:\r", &[]),
    ("", "a:", &[]),
    ("", "a:\nb:\nc: c", &[0]),
    ("", "a: 7\nb: a\nb", &[7, 0, 1]),
    ("", "b\nb: jump b\nc\nc:", &[1, 3584, 1, 4]),
    ("", "here: here + here\nhere", &[0, 0]),
    ("", "jump end\njump end\nend: return", &[3584, 4, 3584, 4, 4352]),
    ("", "a:load r1 a\nb:load r1 b", &[272, 0, 272, 2]),
    ("", "7 + 2 * 3 - 4", &[9]),
    ("", "(7 + 2) * 3 - 4", &[23]),
    ("", "7 + 2 * (6 - 4)", &[11]),
    ("", "10 - 3 - 2", &[5]),
    ("", "10 - (3 - 2)", &[9]),
    ("", "2 * 3 * 4", &[24]),
    ("", "0 * 2 * 65535", &[0]),
    ("", "65535 * 1 + 0 - 65535", &[0]),
    ("", "255 * 257", &[65535]),
    ("", "65534 + 1", &[65535]),
    ("", "2 - 1 + 65534", &[65535]),
    ("", "((((((((5))))))))", &[5]),
    ("", "((((((((5)))))))) + ((((((((6))))))))", &[11]),
    ("", "(1)+(2)*(3)", &[7]),
    ("", "load r0(5)", &[256, 5]),
    ("", "jump(5)*(6)", &[3584, 30]),
    ("r8 = 8\nloads = 9", "r8\nloads + r8\nload r7 r8", &[8, 17, 368, 8]),
    ("r = 1\nr00 = 2\na_ = 3\nz9_0 = 4", "r + r00 + a_ + z9_0", &[10]),
    ("a = 65535\nb = a - a\nc = b", "c\na", &[0, 65535]),
    ("finish1 = 5\njump_by = 6", "finish1 * jump_by", &[30]),
    ("unused = 65535 - 65535", "return", &[4352]),
    ("ab = 1\na = 2\nabc = 3", "a\nab\nabc", &[2, 1, 3]),
];

/// Each order with its words.
fn orders() -> Vec<Special> {
    ORDERS
        .map(|(line, words)| Special {
            names: "w = 3".into(),
            script: line.into(),
            room: words.len(),
            by_hand: accepted(words),
        })
        .into()
}

/// A line, where w is 3, and its words.
const ORDERS: [(&str, &[u16]); 38] = [
    ("load r0 0", &[256, 0]),
    ("load r7 65535", &[368, 65535]),
    ("copy r0 r0", &[512]),
    ("copy r1 r2", &[530]),
    ("copy r7 r7", &[631]),
    ("fetch r1 r2", &[786]),
    ("store r1 r2", &[1042]),
    ("add r1 r2", &[1298]),
    ("subtract r1 r2", &[1554]),
    ("multiply r1 r2", &[1810]),
    ("quotient r1 r2", &[2066]),
    ("remainder r1 r2", &[2322]),
    ("and r1 r2", &[2578]),
    ("or r1 r2", &[2834]),
    ("xor r1 r2", &[3090]),
    ("compare r1 r2", &[3346]),
    ("compare r7 r0", &[3440]),
    ("jump 9", &[3584, 9]),
    ("jumpeq 9", &[3840, 9]),
    ("jumplt 9", &[3856, 9]),
    ("jumpgt 9", &[3872, 9]),
    ("call 9", &[4096, 9]),
    ("return", &[4352]),
    ("send", &[4624]),
    ("receive", &[4640]),
    ("input", &[4656]),
    ("output", &[4672]),
    ("0", &[0]),
    ("65535", &[65535]),
    ("q: load r6 q + 1", &[352, 1]),
    ("q: jumpgt q", &[3872, 0]),
    ("q: return", &[4352]),
    ("q: 5", &[5]),
    ("q:w", &[3]),
    ("q:return;", &[4352]),
    (" \r\t q \r\t : \r\t xor \r\t r3 \r\t r4 \r\t ", &[3124]),
    ("load r0(0)", &[256, 0]),
    ("q:jumplt(w)*(w)", &[3856, 9]),
];

/// Every byte in a comment, after an order, and after a number of the names.
fn comments() -> Vec<Special> {
    let any: Vec<u8> = (0..=255).filter(|&byte| byte != 10).collect();
    let row =
        |names: &[u8], script: &[u8], by_hand| Special { names: names.into(), script: script.into(), room: 2, by_hand };
    let mut list = vec![
        row(&[b"a=1;", &any[..]].concat(), &[b"return;", &any[..]].concat(), accepted(&[4352])),
        row(b"a=1;\nb=2", b"return;\nb", accepted(&[4352, 2])),
        row(b";;\n;", b";return\n;;;", accepted(&[])),
    ];
    for byte in 0..=255 {
        let in_script = match byte {
            b'a'..=b'z' => refused(NAME, SCRIPT, 7, 1),
            b'0'..=b'9' => accepted(&[4352, u16::from(byte - b'0')]),
            b' ' | b'\t' | b'\r' | b'\n' | b';' => accepted(&[4352]),
            _ => refused(GRAMMAR, SCRIPT, 7, 1),
        };
        let in_names = match byte {
            b'0'..=b'9' => accepted(&[10 + u16::from(byte - b'0')]),
            b' ' | b'\t' | b'\r' | b'\n' | b';' => accepted(&[1]),
            _ => refused(GRAMMAR, NAMES, 0, 4),
        };
        list.push(row(b"", &[b"return\n", &[byte][..]].concat(), in_script));
        list.push(row(&[b"q=1", &[byte][..]].concat(), b"q", in_names));
    }
    list
}

/// Numbers of many digits, as a line and as a name's value.
fn numbers() -> Vec<Special> {
    let zeros = "0".repeat(1000);
    let rows = [
        (zeros.clone(), Some(0)),
        (format!("{zeros}7"), Some(7)),
        (format!("{zeros}65535"), Some(65535)),
        (format!("{zeros}65536"), None),
        (format!("7{zeros}"), None),
        ("9".repeat(3000), None),
        (format!("65535{zeros}"), None),
    ];
    let mut list = Vec::new();
    for (number, value) in rows {
        let (alone, named) = (number.len(), number.len() + 2);
        let judged = |text, bytes| match value {
            Some(value) => accepted(&[value]),
            None => refused(VALUE, text, 0, bytes),
        };
        let names = format!("q={number}").into_bytes();
        let script = number.into_bytes();
        list.push(Special { names, script: b"q".into(), room: 1, by_hand: judged(NAMES, named) });
        list.push(Special { names: vec![], script, room: 1, by_hand: judged(SCRIPT, alone) });
    }
    list
}

/// Long names that differ in their last byte alone, or in their length.
fn long_names() -> Vec<Special> {
    let mut list = Vec::new();
    for bytes in [1, 7, 8, 15, 16, 31, 32, 255, 256] {
        let [b, c, longer] = ["b", "c", "bb"].map(|end| format!("{}{end}", "a".repeat(bytes)));
        let shorter = "a".repeat(bytes);
        let names = format!("{b} = 5\n{c} = 6\n");
        let row =
            |script: String, by_hand| Special { names: names.clone().into(), script: script.into(), room: 2, by_hand };
        list.push(row(format!("{c}\n{b}"), accepted(&[6, 5])));
        list.push(row(format!("{longer}: {c}\n{longer}"), accepted(&[6, 0])));
        list.push(row(format!("{b}\n{shorter}"), refused(NAME, SCRIPT, bytes + 2, bytes)));
        list.push(row(format!("{b}\n{longer}"), refused(NAME, SCRIPT, bytes + 2, bytes + 2)));
        list.push(row(format!("{b}\n{c}:"), refused(NAME, SCRIPT, bytes + 2, bytes + 2)));
    }
    list
}

/// Lines that no names have, between two good ones.
fn names_lines() -> Vec<Special> {
    let row = |line: &str| Special {
        names: format!("a = 1\n{line}\nz = 2\n").into(),
        script: "return".into(),
        room: 1,
        by_hand: refused(GRAMMAR, NAMES, 6, line.len()),
    };
    wrong::NAMES_LINES.map(row).into()
}

/// Lines that no script has, between two good ones.
fn script_lines() -> Vec<Special> {
    let row = |line: &str| Special {
        names: "a = 1".into(),
        script: format!("return\n{line}\nz: 2").into(),
        room: 9,
        by_hand: refused(GRAMMAR, SCRIPT, 7, line.len()),
    };
    wrong::SCRIPT_LINES.map(row).into()
}

/// Rows that are no sums, sums with a missing name, and sums out of range, in
/// each place where a sum can stand.
fn sums() -> Vec<Special> {
    let missing = ["m", "1 + m", "m * 0", "0 * m", "(m)", "65536 + m", "q - m - w", "m + m", "mm"];
    let no_sums = wrong::NO_SUMS.map(|row| (GRAMMAR, row));
    let missing = missing.map(|row| (NAME, row));
    let out_of_range = wrong::OUT_OF_RANGE.map(|row| (VALUE, row));
    let mut list = Vec::new();
    for (number, row) in no_sums.into_iter().chain(missing).chain(out_of_range) {
        list.push(Special {
            names: format!("q=1\nw=2\nx={row}").into(),
            script: "m:\nmm: return".into(),
            room: 9,
            by_hand: refused(number, NAMES, 8, row.len() + 2),
        });
        for lead in ["", "x:", "load r1 ", "jump ", "x: call "] {
            list.push(Special {
                names: "q=1\nw=2".into(),
                script: format!("return\n{lead}{row}\n").into(),
                room: 9,
                by_hand: refused(number, SCRIPT, 7, lead.len() + row.len()),
            });
        }
    }
    list
}

/// Refusals of whole texts: which line it is, and which refusal comes first.
fn refusals() -> Vec<Special> {
    let groups: [&[Refused]; 5] = [&OF_GRAMMAR, &OF_NAMES, &OF_VALUES, &OF_ROOM, &OF_TWO];
    let row = |&(names, script, room, (number, text, start, bytes)): &Refused| Special {
        names: names.into(),
        script: script.into(),
        room,
        by_hand: refused(number, text, start, bytes),
    };
    groups.concat().iter().map(row).collect()
}

const OF_GRAMMAR: [Refused; 10] = [
    ("a", "", 0, (GRAMMAR, NAMES, 0, 1)),
    ("a = 1\nB = 2\n", "return\n", 9, (GRAMMAR, NAMES, 6, 5)),
    ("\n\na\n", "return\n", 9, (GRAMMAR, NAMES, 2, 1)),
    ("", "return\n\nreturn 1 ; why\n", 9, (GRAMMAR, SCRIPT, 8, 14)),
    ("", "return\n\tr1\t\r\n", 9, (GRAMMAR, SCRIPT, 7, 5)),
    ("a = 1", "x = 1", 9, (GRAMMAR, SCRIPT, 0, 5)),
    ("", "return\n_", 9, (GRAMMAR, SCRIPT, 7, 1)),
    ("", "(((((((((1)))))))))", 9, (GRAMMAR, SCRIPT, 0, 19)),
    ("a = (((((((((1)))))))))", "", 9, (GRAMMAR, NAMES, 0, 23)),
    ("", "12ab\n", 9, (GRAMMAR, SCRIPT, 0, 4)),
];

const OF_NAMES: [Refused; 15] = [
    ("a = b\nb = 1\n", "", 9, (NAME, NAMES, 0, 5)),
    ("a = a", "", 9, (NAME, NAMES, 0, 5)),
    ("a = 1\na = 1\n", "", 9, (NAME, NAMES, 6, 5)),
    ("a = 1\na = a\n", "", 9, (NAME, NAMES, 6, 5)),
    ("a = 1\na = b\n", "", 9, (NAME, NAMES, 6, 5)),
    ("a = l", "l: return", 9, (NAME, NAMES, 0, 5)),
    ("a = 1", "a: return", 9, (NAME, SCRIPT, 0, 9)),
    ("a = 1", "b\na:\n", 9, (NAME, SCRIPT, 0, 1)),
    ("a = 1", "a:\nb\n", 9, (NAME, SCRIPT, 0, 2)),
    ("", "l:\nl:\n", 9, (NAME, SCRIPT, 3, 2)),
    ("", "l: 1\nm: 2\nl: 3", 9, (NAME, SCRIPT, 10, 4)),
    ("", "jump x\nx:\nx:\n", 9, (NAME, SCRIPT, 10, 2)),
    ("", "jump y\nx:\nx:\n", 9, (NAME, SCRIPT, 0, 6)),
    ("", "x:\nx:\njump y", 9, (NAME, SCRIPT, 3, 2)),
    ("ab = 1", "a", 9, (NAME, SCRIPT, 0, 1)),
];

const OF_VALUES: [Refused; 9] = [
    ("a = 65536\n", "", 9, (VALUE, NAMES, 0, 9)),
    ("a = 1\nb = a - 2\nc = b\n", "", 9, (VALUE, NAMES, 6, 9)),
    ("u = 1 - 2", "return", 9, (VALUE, NAMES, 0, 9)),
    ("a = 40000", "a\na + a\n", 9, (VALUE, SCRIPT, 2, 5)),
    ("a = 256", "a * (a - 1)\na * a\n", 9, (VALUE, SCRIPT, 12, 5)),
    ("", "l: 65536", 9, (VALUE, SCRIPT, 0, 8)),
    ("", "return\nl: 0 - l - 1", 9, (VALUE, SCRIPT, 7, 12)),
    ("", "a - b\na: 7\nb: 7", 9, (VALUE, SCRIPT, 0, 5)),
    ("", "a: 65536\na", 9, (VALUE, SCRIPT, 0, 8)),
];

const OF_ROOM: [Refused; 10] = [
    ("", "return", 0, (ROOM, SCRIPT, 0, 6)),
    ("", "jump 1\n", 1, (ROOM, SCRIPT, 0, 6)),
    ("", "return\n\n", 0, (ROOM, SCRIPT, 7, 0)),
    ("", "return\n\n ; end", 0, (ROOM, SCRIPT, 8, 6)),
    ("", "return\n\n ; end\n", 0, (ROOM, SCRIPT, 8, 6)),
    ("", "1\n2\n3\n", 2, (ROOM, SCRIPT, 4, 1)),
    ("", "1\n2\n3\nl:\n", 2, (ROOM, SCRIPT, 6, 2)),
    ("a = 1\n; last", "a\na", 1, (ROOM, SCRIPT, 2, 1)),
    ("", "1\r\n2\r\n", 1, (ROOM, SCRIPT, 3, 2)),
    ("", "l: load r1 l\n", 1, (ROOM, SCRIPT, 0, 12)),
];

/// Two refusals or more: 13 of any line is before 14, that before 15, and that
/// before 16; of the same number the names are before the script.
const OF_TWO: [Refused; 22] = [
    ("a = b\n", "return\n?", 9, (GRAMMAR, SCRIPT, 7, 1)),
    ("a = 65536\n", "r1\n", 9, (GRAMMAR, SCRIPT, 0, 2)),
    ("a\n", "r1\n", 9, (GRAMMAR, NAMES, 0, 1)),
    ("a = b\na = 65536\nA", "b\n", 0, (GRAMMAR, NAMES, 16, 1)),
    ("", "65536\nq\nr1\n", 9, (GRAMMAR, SCRIPT, 8, 2)),
    ("", "q\nr1\nr1\n", 9, (GRAMMAR, SCRIPT, 2, 2)),
    ("", "a:\na: r1", 9, (GRAMMAR, SCRIPT, 3, 5)),
    ("", "1\n1\nr1", 0, (GRAMMAR, SCRIPT, 4, 2)),
    ("", "q + 65536 +", 0, (GRAMMAR, SCRIPT, 0, 11)),
    ("a = 0 - 1\n", "return\nb", 9, (NAME, SCRIPT, 7, 1)),
    ("a = b\n", "c\n", 9, (NAME, NAMES, 0, 5)),
    ("a = 65536\na = 1\n", "c\n", 9, (NAME, NAMES, 10, 5)),
    ("", "65536\nq\n", 9, (NAME, SCRIPT, 6, 1)),
    ("", "65536 + q", 9, (NAME, SCRIPT, 0, 9)),
    ("", "1\n1\nq", 0, (NAME, SCRIPT, 4, 1)),
    ("", "a: 65536\na: 1", 0, (NAME, SCRIPT, 9, 4)),
    ("a = 65536\n", "65536\n", 9, (VALUE, NAMES, 0, 9)),
    ("a = 65536\nb = 65536\n", "", 9, (VALUE, NAMES, 0, 9)),
    ("", "1\n65536\n65537", 9, (VALUE, SCRIPT, 2, 5)),
    ("", "65536\n1\n1", 0, (VALUE, SCRIPT, 0, 5)),
    ("a = 0 - 1", "1\n1", 0, (VALUE, NAMES, 0, 9)),
    ("", "1\n1\n0 - 1", 2, (VALUE, SCRIPT, 4, 5)),
];

/// A script of so many words in targets around that count.
fn rooms() -> Vec<Special> {
    let mut list = Vec::new();
    for words in 0..=4 {
        for room in 0..=6 {
            let by_hand = match words {
                _ if words <= room => accepted(&vec![7; words]),
                _ => refused(ROOM, SCRIPT, 2 * words - 2, 1),
            };
            list.push(Special { names: vec![], script: b"7\n".repeat(words), room, by_hand });
        }
    }
    list
}

#[cfg(test)]
mod tests {
    use super::*;

    #[test]
    fn every_text_gives_what_is_written_beside_it() {
        all().into_iter().for_each(|special| _ = special.case(0));
    }
}
