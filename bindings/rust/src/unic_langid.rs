//! A stand-in for the crate `unic-langid`: tags of languages, and [`langid!`](crate::langid!).

use std::error::Error;
use std::fmt;
use std::str::FromStr;

pub use crate::langid;

/// The tag of a language, as `en`, `pt-PT` or `zh-Hant-TW`: a language and perhaps a script, a region and variants.
///
/// ```
/// use fluent_bundle::unic_langid::LanguageIdentifier;
///
/// let tag: LanguageIdentifier = "PT_pt".parse().expect("a tag");
/// assert_eq!(tag.language, "pt");
/// assert_eq!(tag.region.as_deref(), Some("PT"));
/// assert_eq!(tag.to_string(), "pt-PT");
/// assert!("x".parse::<LanguageIdentifier>().is_err());
/// ```
///
/// Unlike `unic-langid`'s, its parts are texts.
#[derive(Clone, Debug, Eq, Hash, Ord, PartialEq, PartialOrd)]
pub struct LanguageIdentifier {
    /// In small letters; `und` where none is said.
    pub language: String,
    /// With one capital.
    pub script: Option<String>,
    /// In capitals, or three digits.
    pub region: Option<String>,
    /// In small letters and in order, each once.
    pub variants: Vec<String>,
}

impl Default for LanguageIdentifier {
    /// The tag `und`.
    fn default() -> Self {
        Self {
            language: "und".to_string(),
            script: None,
            region: None,
            variants: Vec::new(),
        }
    }
}

impl LanguageIdentifier {
    /// The tag of these bytes.
    pub fn from_bytes(tag: &[u8]) -> Result<Self, LanguageIdentifierError> {
        let tag = std::str::from_utf8(tag).map_err(|_| LanguageIdentifierError)?;
        tag.parse()
    }

    /// What [`langid!`](crate::langid!) gives of a tag that it looked at; `und` for what is none.
    #[doc(hidden)]
    pub fn of_checked(tag: &str) -> Self {
        tag.parse().unwrap_or_default()
    }

    fn add(&mut self, part: &str) {
        match part.len() {
            4 if part.bytes().all(|b| b.is_ascii_alphabetic()) => {
                let (first, rest) = part.split_at(1);
                let first = first.to_ascii_uppercase();
                self.script = Some(first + &rest.to_ascii_lowercase());
            }
            2 | 3 => self.region = Some(part.to_ascii_uppercase()),
            _ => self.variants.push(part.to_ascii_lowercase()),
        }
    }
}

impl FromStr for LanguageIdentifier {
    type Err = LanguageIdentifierError;

    fn from_str(tag: &str) -> Result<Self, LanguageIdentifierError> {
        if !is_tag(tag) {
            return Err(LanguageIdentifierError);
        }
        let mut parts = tag.split(['-', '_']);
        let mut found = Self {
            language: parts.next().unwrap_or("und").to_ascii_lowercase(),
            ..Self::default()
        };
        for part in parts {
            found.add(part);
        }
        found.variants.sort();
        found.variants.dedup();
        Ok(found)
    }
}

impl fmt::Display for LanguageIdentifier {
    fn fmt(&self, f: &mut fmt::Formatter<'_>) -> fmt::Result {
        f.write_str(&self.language)?;
        let parts = self.script.iter().chain(&self.region).chain(&self.variants);
        for part in parts {
            write!(f, "-{part}")?;
        }
        Ok(())
    }
}

impl PartialEq<&str> for LanguageIdentifier {
    #[allow(clippy::cmp_owned)]
    fn eq(&self, tag: &&str) -> bool {
        self.to_string() == *tag
    }
}

/// A text that is no tag of a language.
#[derive(Clone, Copy, Debug, Eq, PartialEq)]
pub struct LanguageIdentifierError;

impl fmt::Display for LanguageIdentifierError {
    fn fmt(&self, f: &mut fmt::Formatter<'_>) -> fmt::Result {
        f.write_str("not the tag of a language")
    }
}

impl Error for LanguageIdentifierError {}

/// Which parts of a tag may follow: 1 a script, a region or a variant, 2 no script, 3 variants alone.
type Stage = u8;

/// Whether a text is the tag of a language.
#[doc(hidden)]
pub const fn is_tag(tag: &str) -> bool {
    let tag = tag.as_bytes();
    let mut end = part_end(tag, 0);
    if !is_language(tag, end) {
        return false;
    }
    let mut stage = 1;
    while end < tag.len() {
        let start = end + 1;
        end = part_end(tag, start);
        stage = after(stage, tag, start, end);
        if stage == 0 {
            return false;
        }
    }
    true
}

/// Where the part ends that begins at an offset.
const fn part_end(tag: &[u8], start: usize) -> usize {
    let mut at = start;
    while at < tag.len() && tag[at] != b'-' && tag[at] != b'_' {
        at += 1;
    }
    at
}

/// The stage behind a part; 0 where the part may not follow.
const fn after(stage: Stage, tag: &[u8], start: usize, end: usize) -> Stage {
    let (length, letters, digits) = (
        end - start,
        letters(tag, start, end),
        digits(tag, start, end),
    );
    if stage == 1 && length == 4 && letters == 4 {
        return 2;
    }
    if stage < 3 && ((length == 2 && letters == 2) || (length == 3 && digits == 3)) {
        return 3;
    }
    let begins_with_digit = length == 4 && tag[start].is_ascii_digit();
    if letters + digits == length && (begins_with_digit || (length >= 5 && length <= 8)) {
        return 3;
    }
    0
}

const fn is_language(tag: &[u8], end: usize) -> bool {
    letters(tag, 0, end) == end && (end == 2 || end == 3 || (end >= 5 && end <= 8))
}

const fn letters(tag: &[u8], start: usize, end: usize) -> usize {
    let (mut at, mut count) = (start, 0);
    while at < end {
        count += tag[at].is_ascii_alphabetic() as usize;
        at += 1;
    }
    count
}

const fn digits(tag: &[u8], start: usize, end: usize) -> usize {
    let (mut at, mut count) = (start, 0);
    while at < end {
        count += tag[at].is_ascii_digit() as usize;
        at += 1;
    }
    count
}

/// A tag that is looked at when the program is compiled.
///
/// ```
/// let tag = fluent_bundle::langid!("zh-hant-TW");
/// assert_eq!(tag.to_string(), "zh-Hant-TW");
/// ```
///
/// ```compile_fail
/// let tag = fluent_bundle::langid!("no tag");
/// ```
#[macro_export]
macro_rules! langid {
    ($tag:expr) => {{
        const _: () = assert!(
            $crate::unic_langid::is_tag($tag),
            "not the tag of a language"
        );
        $crate::unic_langid::LanguageIdentifier::of_checked($tag)
    }};
}

#[cfg(test)]
mod tests {
    use super::*;

    #[test]
    fn tags_are_told_from_other_texts() {
        for tag in [
            "en",
            "und",
            "pt-PT",
            "sr-Latn-RS",
            "es-419",
            "de-1996",
            "ca-ES-valencia",
            "sl-rozaj-biske",
            "EN_us",
            "abcde",
        ] {
            assert!(is_tag(tag), "{tag}");
        }
        for text in [
            "",
            "e",
            "abcd",
            "en-",
            "-en",
            "en--US",
            "en US",
            "en-US-Latn",
            "en-x-own",
            "12",
            "en-valenciaaa",
            "é",
        ] {
            assert!(!is_tag(text), "{text}");
        }
    }

    #[test]
    fn parts_have_their_cases_and_order() {
        let tag: LanguageIdentifier = "SL-latn-si-ROZAJ-1994-rozaj".parse().expect("a tag");
        assert_eq!(tag, "sl-Latn-SI-1994-rozaj");
        assert_eq!(LanguageIdentifier::default().to_string(), "und");
        assert_eq!(
            LanguageIdentifier::from_bytes(b"\xff"),
            Err(LanguageIdentifierError)
        );
    }
}
