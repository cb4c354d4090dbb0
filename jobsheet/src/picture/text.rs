//! Words as they are drawn: without what is not seen, cut, escaped, and about how wide.

use crate::number::grouped;

/// A title or a reason is cut to this many characters.
pub(super) const LONGEST: usize = 80;

/// Characters that are not seen but change how others are seen: directions, joiners, marks of byte order.
fn hidden(c: char) -> bool {
    matches!(c, '\u{ad}' | '\u{61c}' | '\u{200b}'..='\u{200f}' | '\u{2028}'..='\u{202e}' | '\u{2060}'..='\u{206f}')
        || matches!(c, '\u{fe00}'..='\u{fe0f}' | '\u{feff}' | '\u{fff0}'..='\u{ffff}' | '\u{e0000}'..='\u{e0fff}')
}

/// A stranger's words: control characters dropped, white space as one space, at most `LONGEST` characters.
pub(super) fn plain(words: &str) -> String {
    let mut seen = String::new();
    let mut count = 0;
    for c in words.chars() {
        let c = if c.is_whitespace() { ' ' } else { c };
        if c.is_control() || hidden(c) || (c == ' ' && (seen.is_empty() || seen.ends_with(' '))) {
            continue;
        }
        count += 1;
        if count > LONGEST {
            seen.push('…');
            break;
        }
        seen.push(c);
    }
    seen
}

/// A stranger's title, or what it is if nothing of that can be seen.
pub(super) fn titled(words: &str) -> String {
    let seen = plain(words);
    if seen.trim().is_empty() {
        return "job sheet".to_string();
    }
    seen
}

/// Escaped for the text and the attributes of XML.
pub(super) fn escaped(words: &str) -> String {
    let mut safe = String::with_capacity(words.len());
    for c in words.chars() {
        match c {
            '&' => safe.push_str("&amp;"),
            '<' => safe.push_str("&lt;"),
            '>' => safe.push_str("&gt;"),
            '"' => safe.push_str("&quot;"),
            '\'' => safe.push_str("&#39;"),
            _ => safe.push(c),
        }
    }
    safe
}

/// `1 job`, `2 jobs`, `no jobs`; `things` is the plural, where an `s` at the end does not do.
pub(super) fn counted(number: usize, thing: &str, things: &str) -> String {
    match number {
        0 => format!("no {}", things),
        1 => format!("1 {}", thing),
        _ => format!("{} {}", grouped(number), things),
    }
}

/// About how many pixels wide, and rather too wide than too narrow: a digit has 0.64 of the size.
pub(super) fn width(words: &str, size: i64) -> i64 {
    let hundredths: i64 = words.chars().map(hundredths).sum();
    (hundredths * size + 99) / 100
}

/// Of DejaVu Sans, in hundredths of the size.
fn hundredths(c: char) -> i64 {
    match c {
        ' ' | '·' | ',' | '.' | ':' | ';' | 'i' | 'j' | 'l' => 34,
        'f' | 'r' | 't' | '(' | ')' => 42,
        'm' | 'w' | 'M' | 'W' | '@' | '%' => 100,
        'A'..='Z' => 78,
        ' '..='~' => 64,
        _ => 100,
    }
}
