//! Why sources can't be read: places and texts.
use crate::check::{check, is_same};
use fluent_reasons::reason_of;
use std::alloc::{AllocError, Global};
use std::test::Fail;

/// A source, the byte where its Junk begins, how many bytes behind that reading stops, and what was expected there.
const REASONS: &[(&str, usize, usize, &str)] = &[
    ("a = { $n\n", 0, 9, "expected a closing '}'"),
    ("a = 1\nno entry\n", 6, 3, "expected '='"),
    (
        "a = 1\nb = { F(x: 1, x: 2) }\n",
        6,
        14,
        "an argument before has this name",
    ),
    (
        "a = { $n ->\n    [one] x\n}\n",
        0,
        24,
        "expected a default variant, marked by '*'",
    ),
];

fn is_told(
    alloc: Global,
    source: &str,
    start: usize,
    offset: usize,
    text: &str,
) -> Result<bool, AllocError> {
    let reason = reason_of(alloc, source, start)?;
    let expected = reason.expected;
    let shown = format!(in alloc; "{expected}")?;
    Ok(reason.offset == offset && is_same(shown.as_str(), text))
}

/// Run with each allocation failing in turn.
#[test]
fn reasons_are_told_where_reading_stops(rt: HostRuntime) -> Result<(), Fail> {
    for (source, start, offset, text) in REASONS {
        check(
            &rt,
            is_told(rt.alloc(), *source, *start, *offset, *text)?,
            source,
        );
    }
    Ok(())
}
