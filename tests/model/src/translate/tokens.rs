//! A text as lines, and a line as a row of tokens.

/// One of the two texts.
#[derive(Clone, Copy, Debug, PartialEq, Eq)]
pub enum Text {
    Names,
    Script,
}

/// A line of a text, without its byte 10.
#[derive(Clone, Copy, Debug, PartialEq, Eq)]
pub struct Line<'a> {
    pub text: Text,
    /// How many bytes of the text stand before it.
    pub start: usize,
    pub bytes: &'a [u8],
}

/// A number has its value only where that is at most 65535.
#[derive(Clone, Debug, PartialEq, Eq)]
pub enum Token {
    Number(Option<u16>),
    Word(String),
    Mark(u8),
}

/// The lines of a text. The last one may lack its byte 10.
pub fn lines(text: Text, bytes: &[u8]) -> Vec<Line<'_>> {
    let mut start = 0;
    let mut lines = Vec::new();
    for with_end in bytes.split_inclusive(|&byte| byte == b'\n') {
        let bytes = with_end.strip_suffix(b"\n").unwrap_or(with_end);
        lines.push(Line { text, start, bytes });
        start += with_end.len();
    }
    lines
}

/// The tokens of a line before its comment, if no other byte stands there.
pub fn tokens(line: &[u8]) -> Option<Vec<Token>> {
    let comment = line.iter().position(|&byte| byte == b';').unwrap_or(line.len());
    let mut rest = &line[..comment];
    let mut row = Vec::new();
    while let Some(&first) = rest.first() {
        let longest = match first {
            b'0'..=b'9' => leading(rest, |byte| byte.is_ascii_digit()),
            b'a'..=b'z' => leading(rest, in_word),
            _ => 1,
        };
        let (token, after) = rest.split_at(longest);
        match first {
            b' ' | b'\t' | b'\r' => {}
            b'0'..=b'9' => row.push(Token::Number(value(token))),
            b'a'..=b'z' => row.push(Token::Word(String::from_utf8_lossy(token).into())),
            b'+' | b'-' | b'*' | b'(' | b')' | b':' | b'=' => row.push(Token::Mark(first)),
            _ => return None,
        }
        rest = after;
    }
    Some(row)
}

/// How many bytes in a row are of a sort, from the first on.
fn leading(bytes: &[u8], of_sort: fn(u8) -> bool) -> usize {
    bytes.iter().take_while(|&&byte| of_sort(byte)).count()
}

/// Whether a byte can stand inside a word.
fn in_word(byte: u8) -> bool {
    byte.is_ascii_lowercase() || byte.is_ascii_digit() || byte == b'_'
}

/// The value of decimal digits, if it is at most 65535. No part of a number
/// is larger than the whole.
fn value(digits: &[u8]) -> Option<u16> {
    let with = |value: u16, digit: &u8| value.checked_mul(10)?.checked_add((digit - b'0').into());
    digits.iter().try_fold(0, with)
}

#[cfg(test)]
mod tests {
    use super::*;

    fn row(line: &str) -> Vec<Token> {
        tokens(line.as_bytes()).expect("a row of tokens")
    }

    fn word(letters: &str) -> Token {
        Token::Word(letters.into())
    }

    #[test]
    fn a_text_has_as_many_lines_as_the_page_says() {
        let of = |bytes: &'static [u8]| -> Vec<(usize, &[u8])> {
            lines(Text::Names, bytes).iter().map(|line| (line.start, line.bytes)).collect()
        };
        assert_eq!(of(b""), []);
        assert_eq!(of(b"a"), [(0, &b"a"[..])]);
        assert_eq!(of(b"a\n"), [(0, &b"a"[..])]);
        assert_eq!(of(b"\n"), [(0, &b""[..])]);
        assert_eq!(of(b"a\n\nbc\r\n"), [(0, &b"a"[..]), (2, b""), (3, b"bc\r")]);
    }

    #[test]
    fn a_token_is_as_long_as_it_can_be() {
        assert_eq!(row("load r1"), [word("load"), word("r1")]);
        assert_eq!(row("loadr1"), [word("loadr1")]);
        assert_eq!(row("12ab_3"), [Token::Number(Some(12)), word("ab_3")]);
        assert_eq!(row("a_"), [word("a_")]);
        assert_eq!(row("\ta:=\r"), [word("a"), Token::Mark(b':'), Token::Mark(b'=')]);
        assert_eq!(row(" (7)"), [Token::Mark(b'('), Token::Number(Some(7)), Token::Mark(b')')]);
        assert_eq!(row("+-*"), [b'+', b'-', b'*'].map(Token::Mark));
    }

    #[test]
    fn a_comment_is_no_token_and_no_other_byte_stands_before_it() {
        assert_eq!(row(""), []);
        assert_eq!(row(";"), []);
        assert_eq!(tokens(b" 1;\x00\xFF;A"), Some(vec![Token::Number(Some(1))]));
        let outside = (0..=255u8).filter(|&byte| tokens(&[b'1', byte, b'1']).is_none());
        let inside = b" \t\r;abcdefghijklmnopqrstuvwxyz0123456789+-*():=";
        assert!(outside.eq((0..=255).filter(|byte| !inside.contains(byte))));
        assert_eq!(tokens(b"_a"), None);
        assert_eq!(tokens(b"1_"), None);
        assert_eq!(tokens(b"aB"), None);
    }

    #[test]
    fn a_number_has_any_count_of_digits() {
        assert_eq!(row("0"), [Token::Number(Some(0))]);
        assert_eq!(row("65535 65536"), [Token::Number(Some(65535)), Token::Number(None)]);
        assert_eq!(row(&format!("{}65535", "0".repeat(5000))), [Token::Number(Some(65535))]);
        assert_eq!(row(&"9".repeat(5000)), [Token::Number(None)]);
        assert_eq!(row("65536000000000000000000000"), [Token::Number(None)]);
        assert_eq!(row("4294967296"), [Token::Number(None)]);
    }
}
