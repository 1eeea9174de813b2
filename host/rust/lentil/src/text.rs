//! Sizes and names as text, and text to standard output.

use std::env;
use std::fmt::Write as _;
use std::io::{self, Write as _};

use crate::failure::{About, Outcome};
use crate::sys;

const UNITS: [(char, u64); 3] = [('G', 1 << 30), ('M', 1 << 20), ('k', 1 << 10)];

/// A number of bytes: digits, and k, M or G behind them for powers of 1,024.
pub fn parse_size(text: &str) -> Option<u64> {
    let unit = UNITS.iter().find(|(letter, _)| text.ends_with(*letter));
    let (digits, factor) = match unit {
        Some((_, factor)) => (&text[..text.len() - 1], *factor),
        None => (text, 1),
    };
    parse_number(digits)?.checked_mul(factor)
}

/// A number: digits and nothing else.
pub fn parse_number(text: &str) -> Option<u64> {
    let plain = text.bytes().all(|byte| byte.is_ascii_digit());
    text.parse().ok().filter(|_| plain)
}

/// A size in the greatest unit that it reaches, to three decimals: 1536 is 1.5k.
pub fn short_size(bytes: u64) -> String {
    size_in_units(bytes, 3)
}

/// The same to one decimal, where little room is and no more is asked for.
pub fn rough_size(bytes: u64) -> String {
    size_in_units(bytes, 1)
}

fn size_in_units(bytes: u64, decimals: u32) -> String {
    let unit = UNITS.iter().find(|(_, factor)| bytes >= *factor);
    let (letter, factor) = match unit {
        Some((letter, factor)) => (letter, u128::from(*factor)),
        None => return bytes.to_string(),
    };
    let parts = 10_u128.pow(decimals);
    let rounded = (u128::from(bytes) * parts + factor / 2) / factor;
    let behind = format!("{:0width$}", rounded % parts, width = decimals as usize);
    match behind.trim_end_matches('0') {
        "" => format!("{}{}", rounded / parts, letter),
        behind => format!("{}.{}{}", rounded / parts, behind, letter),
    }
}

/// A number with a comma before each three digits.
pub fn grouped(number: u64) -> String {
    let digits = number.to_string();
    let first = digits.len() % 3;
    let (head, tail) = digits.split_at(first);
    let groups = tail
        .as_bytes()
        .chunks(3)
        .map(|group| String::from_utf8_lossy(group));
    let head = Some(head.into()).filter(|_| first > 0);
    head.into_iter().chain(groups).collect::<Vec<_>>().join(",")
}

/// A name that a terminal can be given: as it is, or, if it has control characters or is not
/// UTF-8, in the shell's form `$'..'`.
pub fn quoted(name: &[u8]) -> String {
    match std::str::from_utf8(name) {
        Ok(text) if !text.chars().any(is_unsafe) => text.to_string(),
        _ => format!("$'{}'", escaped(name)),
    }
}

/// Control characters, those that change the order or the look of what follows unseen, and those
/// that no file of text may have.
fn is_unsafe(letter: char) -> bool {
    letter.is_control()
        || matches!(letter, '\u{200b}'..='\u{200f}' | '\u{2028}'..='\u{202e}')
        || matches!(
            letter,
            '\u{2060}'..='\u{2069}' | '\u{feff}' | '\u{fffe}' | '\u{ffff}'
        )
}

fn escaped(name: &[u8]) -> String {
    let mut text = String::new();
    let mut rest = name;
    while !rest.is_empty() {
        let (good, bad) = leading_text(rest);
        good.chars()
            .for_each(|letter| escape_letter(letter, &mut text));
        bad.iter().for_each(|byte| escape_byte(*byte, &mut text));
        rest = &rest[good.len() + bad.len()..];
    }
    text
}

/// The UTF-8 at the front, and the bytes behind it that are not.
fn leading_text(bytes: &[u8]) -> (&str, &[u8]) {
    match std::str::from_utf8(bytes) {
        Ok(text) => (text, &[]),
        Err(error) => {
            let (good, rest) = bytes.split_at(error.valid_up_to());
            let bad = error.error_len().unwrap_or(rest.len());
            (std::str::from_utf8(good).unwrap_or(""), &rest[..bad])
        }
    }
}

fn escape_letter(letter: char, text: &mut String) {
    match letter {
        '\n' => text.push_str("\\n"),
        '\t' => text.push_str("\\t"),
        '\r' => text.push_str("\\r"),
        '\'' | '\\' => text.extend(['\\', letter]),
        _ if is_unsafe(letter) => {
            let mut bytes = [0; 4];
            letter
                .encode_utf8(&mut bytes)
                .bytes()
                .for_each(|byte| escape_byte(byte, text));
        }
        _ => text.push(letter),
    }
}

fn escape_byte(byte: u8, text: &mut String) {
    // Writing to a string cannot fail.
    let _ = write!(text, "\\x{:02x}", byte);
}

/// How names go to standard output: safe to look at on a terminal, else byte for byte.
#[derive(Clone, Copy)]
pub struct Names {
    safe: bool,
}

impl Names {
    pub fn for_output() -> Names {
        let safe = sys::is_terminal(&io::stdout());
        Names { safe }
    }

    pub fn form(self, name: &[u8]) -> Vec<u8> {
        match self.safe {
            true => quoted(name).into_bytes(),
            false => name.to_vec(),
        }
    }
}

/// Whether the place where the program runs asks for UTF-8, so that lines may be drawn with it.
pub fn draws_unicode() -> bool {
    let set = ["LC_ALL", "LC_CTYPE", "LANG"]
        .iter()
        .filter_map(env::var_os)
        .find(|value| !value.is_empty());
    let language = set.unwrap_or_default().to_string_lossy().to_lowercase();
    language.contains("utf-8") || language.contains("utf8")
}

pub fn print(bytes: &[u8]) -> Outcome<()> {
    let mut output = io::stdout();
    let written = output.write_all(bytes).and_then(|()| output.flush());
    written.about(&b"standard output"[..])
}

#[cfg(test)]
mod tests {
    use super::*;

    #[test]
    fn sizes_are_digits_with_a_unit_or_none() {
        assert_eq!(parse_size("0"), Some(0));
        assert_eq!(parse_size("40000"), Some(40000));
        assert_eq!(parse_size("4k"), Some(4096));
        assert_eq!(parse_size("64M"), Some(64 << 20));
        assert_eq!(parse_size("1024G"), Some(1 << 40));
        assert_eq!(parse_size("18446744073709551615"), Some(u64::MAX));
    }

    #[test]
    fn nothing_else_is_a_size() {
        let others = [
            "", "k", "-1", "+1", "1.5k", "4K", "4kk", "4 k", "0x10", "1_000", "é",
        ];
        for text in others {
            assert_eq!(parse_size(text), None, "{}", text);
        }
        assert_eq!(parse_size("18446744073709551616"), None);
        assert_eq!(parse_size("17179869184G"), None);
    }

    #[test]
    fn numbers_are_digits_alone() {
        assert_eq!(parse_number("0"), Some(0));
        assert_eq!(parse_number("007"), Some(7));
        assert_eq!(parse_number("18446744073709551615"), Some(u64::MAX));
        for text in ["", "4k", "-1", "+1", " 1", "1.0", "18446744073709551616"] {
            assert_eq!(parse_number(text), None, "{}", text);
        }
    }

    #[test]
    fn sizes_are_shown_in_the_greatest_unit() {
        assert_eq!(short_size(0), "0");
        assert_eq!(short_size(1023), "1023");
        assert_eq!(short_size(1536), "1.5k");
        assert_eq!(short_size(1152 << 10), "1.125M");
        assert_eq!(short_size(40000), "39.063k");
        assert_eq!(short_size(u64::MAX), "17179869184G");
        assert_eq!(rough_size(40000), "39.1k");
        assert_eq!(rough_size(1 << 20), "1M");
    }

    #[test]
    fn digits_are_grouped_by_three() {
        assert_eq!(grouped(0), "0");
        assert_eq!(grouped(999), "999");
        assert_eq!(grouped(1000), "1,000");
        assert_eq!(grouped(1 << 40), "1,099,511,627,776");
    }

    #[test]
    fn plain_names_stay() {
        for name in ["hood7", "a b", "Zählrohr", "it's", "back\\slash"] {
            assert_eq!(quoted(name.as_bytes()), name);
        }
    }

    #[test]
    fn other_names_are_quoted_for_the_shell() {
        assert_eq!(quoted(b"a\nb"), "$'a\\nb'");
        assert_eq!(quoted(b"it's\t\\"), "$'it\\'s\\t\\\\'");
        assert_eq!(quoted(b"\x1b[31m"), "$'\\x1b[31m'");
        assert_eq!(quoted(b"\xffa\xc3"), "$'\\xffa\\xc3'");
        assert_eq!(quoted("ä\u{202e}b".as_bytes()), "$'ä\\xe2\\x80\\xaeb'");
    }
}
