//! That the ranges of Junk and the entries between them make up a source.
//!
//! Entries have no ranges, so what stands between two Junks is read by itself: as the same entries, and with no Junk.
use crate::bundles::{Source, read};
use fluent_bundle::ast::Entry;
use fluent_bundle::{Entries, ParserError};
use std::alloc::{AllocError, Global};

/// The part of a source between two places.
pub fn part_of<'x>(source: &'x str, start: usize, end: usize) -> Option<&'x str> {
    let (prefix, _) = source.split_at_checked(end)?;
    let (_, part) = prefix.split_at_checked(start)?;
    Some(part)
}

/// Whether a line begins at a place.
fn is_line_start(bytes: &[u8], place: usize) -> bool {
    match place.checked_sub(1) {
        Some(before) => bytes.get(before) == Some(&b'\n'),
        None => true,
    }
}

/// Whether reading begins anew at a place after Junk: at the end of the text, or where a line begins with `#`, `-` or
/// an ASCII letter.
fn is_new_start(bytes: &[u8], place: usize) -> bool {
    match bytes.get(place) {
        Some(byte) => {
            is_line_start(bytes, place)
                && (*byte == b'#' || *byte == b'-' || byte.is_ascii_alphabetic())
        }
        None => true,
    }
}

/// Whether a range is that of Junk which begins there: a line and all after it up to the first new start.
fn reaches_to_its_end(bytes: &[u8], range: &ParserError) -> bool {
    for place in range.start.saturating_add(1)..range.end {
        if is_new_start(bytes, place) {
            return false;
        }
    }
    is_line_start(bytes, range.start) && range.start < range.end && is_new_start(bytes, range.end)
}

/// Whether the next entries are those of a part of the source, which has no Junk by itself.
fn come_next<'s>(
    alloc: Global,
    entries: &mut Entries<'_, 's>,
    part: &'s str,
) -> Result<bool, AllocError> {
    let alone = read(alloc, part)?;
    if !alone.errors.is_empty() {
        return Ok(false);
    }
    for entry in alone.resource.entries() {
        if entries.next() != Some(entry) {
            return Ok(false);
        }
    }
    Ok(true)
}

/// Whether the next entry is the Junk at a range.
fn comes_next<'s>(entries: &mut Entries<'_, 's>, source: &'s str, range: &ParserError) -> bool {
    let part = part_of(source, range.start, range.end);
    match entries.next() {
        Some(Entry::Junk { content }) => {
            part == Some(*content) && reaches_to_its_end(source.as_bytes(), range)
        }
        _ => false,
    }
}

/// Whether Junk and entries make up the source.
pub fn make_up<'s>(alloc: Global, read: &Source<'s>) -> Result<bool, AllocError> {
    let source = read.resource.source();
    let mut entries = read.resource.entries();
    let mut done = 0;
    for range in &read.errors {
        let Some(part) = part_of(source, done, range.start) else {
            return Ok(false);
        };
        if !come_next(alloc, &mut entries, part)? || !comes_next(&mut entries, source, range) {
            return Ok(false);
        }
        done = range.end;
    }
    let Some(part) = part_of(source, done, source.len()) else {
        return Ok(false);
    };
    Ok(come_next(alloc, &mut entries, part)? && entries.next().is_none())
}
