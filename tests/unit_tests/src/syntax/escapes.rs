//! Escapes of string literals: texts that the standard gives.
use crate::check::{check, is_same};
use fluent_syntax::{Counting, unescape_unicode, unescape_unicode_to_string};
use std::alloc::{AllocError, Global};
use std::borrow::CowStr;
use std::test::Fail;

/// A quoted text, and what it means.
const ESCAPES: &[(&str, &str)] = &[
    ("", ""),
    ("hello, world", "hello, world"),
    ("é\u{1F602}", "é\u{1F602}"),
    ("\\\\", "\\"),
    ("\\\"", "\""),
    ("\\u0041", "A"),
    ("\\u00e9\\u00E9", "éé"),
    ("\\U01F602", "\u{1F602}"),
    ("\\u0041\\U01F602\\\\\\\"\\uD800", "A\u{1F602}\\\"\u{FFFD}"),
    ("\\uD800", "\u{FFFD}"),
    ("\\uDFFF", "\u{FFFD}"),
    ("\\uE000", "\u{E000}"),
    ("\\U110000", "\u{FFFD}"),
    ("\\U10FFFF", "\u{10FFFF}"),
    ("\\q", "\u{FFFD}q"),
    ("\\u00", "\u{FFFD}u00"),
    ("\\U0041", "\u{FFFD}U0041"),
    ("\\", "\u{FFFD}"),
    ("x\\u004", "x\u{FFFD}u004"),
    ("a\\\\u0041", "a\\u0041"),
];

/// That a text is written as what it means, without a fault.
fn is_written(alloc: Global, text: &str, meaning: &str) -> Result<bool, AllocError> {
    let mut w = Counting::new(Vec::with_capacity(alloc, 100)?);
    match unescape_unicode(&mut w, text) {
        Ok(()) => Ok(w.into_inner().as_slice() == meaning.as_bytes()),
        Err(_) => Ok(false),
    }
}

/// That the text that is made is the meaning, borrowed where there is no backslash.
fn is_made(made: &CowStr<'_>, text: &str, meaning: &str) -> bool {
    let borrowed = matches!(made, CowStr::Borrowed(_));
    is_same(made.as_str(), meaning) && borrowed != text.contains('\\')
}

fn is_meant(alloc: Global, text: &str, meaning: &str) -> Result<bool, AllocError> {
    let made = unescape_unicode_to_string(alloc, text)?;
    Ok(is_made(&made, text, meaning) && is_written(alloc, text, meaning)?)
}

/// Run with each allocation failing in turn.
#[test]
fn texts_are_what_escapes_mean(rt: HostRuntime) -> Result<(), Fail> {
    for (text, meaning) in ESCAPES {
        check(&rt, is_meant(rt.alloc(), *text, *meaning)?, text);
    }
    Ok(())
}
