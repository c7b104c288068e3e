//! Texts of directives: words, quotes and escapes.
use crate::lines::after;
use std::alloc::{AllocError, Global};

/// The character that an escape stands for, and what stands after it; the backslash is left out.
fn escaped(text: &str) -> Option<(char, &str)> {
    if let Some(digits) = text.strip_prefix("u{") {
        let (digits, rest) = digits.split_once('}')?;
        let code = u32::from_str_radix(digits, 16).ok()?;
        return Some((char::from_u32(code)?, rest));
    }
    let mut signs = text.chars();
    match signs.next()? {
        '\\' => Some(('\\', signs.as_str())),
        '"' => Some(('"', signs.as_str())),
        'n' => Some(('\n', signs.as_str())),
        _ => None,
    }
}

/// A text with what its escapes stand for; `None` where one of them is none.
pub fn unescaped(alloc: Global, text: &str) -> Result<Option<String>, AllocError> {
    let mut out = String::new(alloc);
    let mut rest = text;
    for _ in 0..=text.len() {
        let Some((prefix, escape)) = rest.split_once('\\') else {
            break;
        };
        out.push_str(prefix)?;
        let Some((sign, others)) = escaped(escape) else {
            return Ok(None);
        };
        out.push(sign)?;
        rest = others;
    }
    out.push_str(rest)?;
    Ok(Some(out))
}

/// Whether a byte of a text stands in quotes, as one reads on.
#[derive(Clone, Copy, Default)]
struct Quotes {
    is_inside: bool,
    is_escaped: bool,
}

impl Quotes {
    /// Takes the next byte. Whether it stands outside of quotes.
    fn is_outside(&mut self, byte: u8) -> bool {
        if self.is_escaped {
            self.is_escaped = false;
        } else if byte == b'"' {
            self.is_inside = !self.is_inside;
        } else {
            self.is_escaped = self.is_inside && byte == b'\\';
        }
        !self.is_inside
    }
}

/// The first word of a text, up to a blank that stands outside of quotes, and what stands after that.
pub fn first_word(text: &str) -> (&str, &str) {
    let mut quotes = Quotes::default();
    for (at, byte) in text.bytes().enumerate() {
        if quotes.is_outside(byte) && byte == b' ' {
            if let Some((word, rest)) = text.split_at_checked(at) {
                return (word, rest.trim_start_matches(' '));
            }
        }
    }
    (text, "")
}

/// What stands before and after the bar at a place, if one stands there.
fn split_at_bar(text: &str, at: usize) -> Option<(&str, &str)> {
    let (prefix, rest) = text.split_at_checked(at)?;
    if prefix.is_empty() || prefix.ends_with(' ') {
        Some((prefix, after(rest, "|")?))
    } else {
        None
    }
}

/// What stands before and after the first bar between blanks that stands outside of quotes.
pub fn around_bar(text: &str) -> Option<(&str, &str)> {
    let mut quotes = Quotes::default();
    for (at, byte) in text.bytes().enumerate() {
        if quotes.is_outside(byte) && byte == b'|' {
            if let Some(parts) = split_at_bar(text, at) {
                return Some(parts);
            }
        }
    }
    None
}
