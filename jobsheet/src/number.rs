//! Numbers as growers write them, and as they are shown.

use std::fmt;

/// A number that a line or a row may have.
#[derive(Clone, Copy, Debug, PartialEq, Eq)]
pub enum Part {
    /// The job's own name.
    Name,
    /// A name in its list.
    Listed,
    /// Its class.
    Class,
    /// Its grower.
    Grower,
}

impl Part {
    /// The greatest that it may be.
    pub fn most(self) -> u32 {
        match self {
            Part::Name | Part::Listed => u32::MAX,
            Part::Class => taskgraph::raw::MAX_CLASS,
            Part::Grower => taskgraph::raw::MAX_GROWER,
        }
    }
}

impl fmt::Display for Part {
    fn fmt(&self, f: &mut fmt::Formatter<'_>) -> fmt::Result {
        f.write_str(match self {
            Part::Name => "name",
            Part::Listed => "listed name",
            Part::Class => "class",
            Part::Grower => "grower",
        })
    }
}

/// Why a word is no number of 32 bits.
#[derive(Clone, Copy, Debug, PartialEq, Eq)]
pub enum NoNumber {
    /// It has something other than digits, or nothing.
    NotDigits,
    /// It is above 4,294,967,295.
    Above,
}

/// The number that a word of decimal digits says; leading zeros count for nothing.
pub fn number(word: &[u8]) -> Result<u32, NoNumber> {
    if word.is_empty() || !word.iter().all(u8::is_ascii_digit) {
        return Err(NoNumber::NotDigits);
    }
    word.iter().try_fold(0u32, |value, digit| {
        value.checked_mul(10).and_then(|value| value.checked_add(u32::from(digit - b'0'))).ok_or(NoNumber::Above)
    })
}

/// A number with a comma before each three digits, as limits and sums are shown. Names are shown without.
pub fn grouped(value: usize) -> String {
    let digits = value.to_string();
    let mut shown = String::new();
    for (place, digit) in digits.chars().enumerate() {
        if place > 0 && (digits.len() - place) % 3 == 0 {
            shown.push(',');
        }
        shown.push(digit);
    }
    shown
}

/// So many of something: `1 job`, `4,096 entries`, `2 classes`.
pub fn counted(value: usize, thing: &str) -> String {
    let plural = match thing.strip_suffix('y') {
        Some(stem) => format!("{stem}ies"),
        None if thing.ends_with('s') => format!("{thing}es"),
        None => format!("{thing}s"),
    };
    format!("{} {}", grouped(value), if value == 1 { thing } else { &plural })
}

/// The longest part of a stranger's word that is shown.
const SHOWN: usize = 24;

/// A stranger's word: cut where it is long, and without what a terminal might obey.
pub fn shown(word: &[u8]) -> String {
    plain(word, SHOWN)
}

/// The same in quotes.
pub fn quoted(word: &[u8]) -> String {
    format!("'{}'", shown(word))
}

/// A stranger's text, at most so many characters of it. What a terminal might obey, or nobody sees, is told by its
/// number.
pub fn plain(word: &[u8], most: usize) -> String {
    let start = &word[..word.len().min(4 * most + 4)];
    let (mut shown, mut rest, mut count) = (String::new(), start, 0);
    while let Some(byte) = rest.first() {
        if count == most {
            return shown + "...";
        }
        count += 1;
        let length = (1..=rest.len().min(4)).find(|length| std::str::from_utf8(&rest[..*length]).is_ok());
        match length.and_then(|length| std::str::from_utf8(&rest[..length]).ok()?.chars().next()) {
            Some(letter) if is_harmless(letter) => shown.push(letter),
            Some(letter) => shown += &letter.escape_unicode().to_string(),
            None => shown += &format!("\\x{byte:02x}"),
        }
        rest = &rest[length.unwrap_or(1)..];
    }
    shown
}

fn is_harmless(letter: char) -> bool {
    letter.is_alphanumeric() || letter.is_ascii_graphic() || letter == ' '
}

#[cfg(test)]
mod tests {
    use super::*;

    #[test]
    fn numbers_are_read_to_their_limit() {
        assert_eq!(number(b"0"), Ok(0));
        assert_eq!(number(b"0007"), Ok(7));
        assert_eq!(number(b"4294967295"), Ok(u32::MAX));
        assert_eq!(number(b"4294967296"), Err(NoNumber::Above));
        assert_eq!(number(b"99999999999999999999999"), Err(NoNumber::Above));
        for word in ["", "-1", "+1", "1.0", "1e3", "0x1", "1,000", "\u{661}"] {
            assert_eq!(number(word.as_bytes()), Err(NoNumber::NotDigits), "{word}");
        }
    }

    #[test]
    fn numbers_are_shown_for_people() {
        assert_eq!([0, 999, 1000, 4096, 4294967295].map(grouped), ["0", "999", "1,000", "4,096", "4,294,967,295"]);
        assert_eq!([counted(1, "entry"), counted(0, "job")], ["1 entry", "0 jobs"]);
        assert_eq!([counted(1024, "entry"), counted(2, "class")], ["1,024 entries", "2 classes"]);
    }

    #[test]
    fn words_are_shown_without_harm() {
        assert_eq!(quoted(b"Needs"), "'Needs'");
        assert_eq!(quoted(b"\x1b[31mred\x07"), "'\\u{1b}[31mred\\u{7}'");
        assert_eq!(quoted(&[b'x'; 25]), format!("'{}...'", "x".repeat(24)));
        assert_eq!(quoted("ben\u{f6}tigt\u{202e}1\u{a0}".as_bytes()), "'ben\u{f6}tigt\\u{202e}1\\u{a0}'");
        assert_eq!(quoted(b"\xff\x00\xc3"), "'\\xff\\u{0}\\xc3'");
    }
}
