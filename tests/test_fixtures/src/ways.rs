//! The ways in which a call is tried.
use crate::bundles::Bundle;
use crate::fixture::Told;
use crate::report::Report;
use crate::values::Args;
use crate::writers::{End, How, Narrow, end_by_id, end_of, writer_of};
use fluent_bundle::ast::Pattern;
use fluent_bundle::{Counting, FluentError};
use std::alloc::{AllocError, Global};
use std::borrow::CowStr;

/// How a bundle is told what to format: by a pattern that was looked up, or by id, a value or an attribute.
#[derive(Clone, Copy, Drop)]
enum By<'x, 's> {
    Pattern(&'x Pattern<'s>),
    Value(&'x str),
    Attribute(&'x str, &'x str),
}

/// What a call is made for: a bundle, what it is asked for, and arguments if there are some.
#[derive(Clone, Copy, Drop)]
pub struct Asked<'x, 'r, 's, 'f> {
    bundle: &'x Bundle<'r, 's, 'f>,
    by: By<'x, 's>,
    args: Option<&'x Args<'f>>,
}

impl Asked<'_, '_, '_, '_> {
    /// The name of a way, by what the bundle is told.
    fn way(&self, of_pattern: &'static str, by_id: &'static str) -> &'static str {
        match self.by {
            By::Pattern(_) => of_pattern,
            _ => by_id,
        }
    }
}

/// What is made with these.
pub fn call_for<'x, 'r, 's, 'f>(
    bundle: &'x Bundle<'r, 's, 'f>,
    pattern: &'x Pattern<'s>,
    args: Option<&'x Args<'f>>,
) -> Asked<'x, 'r, 's, 'f> {
    Asked {
        bundle,
        by: By::Pattern(pattern),
        args,
    }
}

/// The same by id: of a value, or of an attribute where a name is given.
pub fn call_by_id<'x, 'r, 's, 'f>(
    bundle: &'x Bundle<'r, 's, 'f>,
    id: &'x str,
    attribute: Option<&'x str>,
    args: Option<&'x Args<'f>>,
) -> Asked<'x, 'r, 's, 'f> {
    let by = match attribute {
        Some(name) => By::Attribute(id, name),
        None => By::Value(id),
    };
    Asked { bundle, by, args }
}

/// Formats what is asked for, if it is there.
pub fn format<'s>(
    asked: &Asked<'_, '_, 's, '_>,
    errors: &mut Vec<FluentError>,
) -> Result<Option<CowStr<'s>>, AllocError> {
    let (bundle, args) = (asked.bundle, asked.args);
    match asked.by {
        By::Pattern(pattern) => Ok(Some(bundle.format_pattern(pattern, args, errors)?)),
        By::Value(id) => bundle.format_value(id, args, errors),
        By::Attribute(id, name) => bundle.format_attribute(id, name, args, errors),
    }
}

/// Writes what is asked for.
fn write(
    asked: &Asked<'_, '_, '_, '_>,
    w: &mut Counting<Narrow>,
    errors: &mut Vec<FluentError>,
) -> End {
    let (bundle, args) = (asked.bundle, asked.args);
    match asked.by {
        By::Pattern(pattern) => end_of(bundle.write_pattern(w, pattern, args, errors)),
        By::Value(id) => end_by_id(bundle.write_value(w, id, args, errors)),
        By::Attribute(id, name) => end_by_id(bundle.write_attribute(w, id, name, args, errors)),
    }
}

// ---- errors

/// The texts of errors, as a fixture has them.
pub fn lines(alloc: Global, errors: &[FluentError]) -> Result<String, AllocError> {
    let mut out = String::new(alloc);
    for error in errors {
        match error {
            FluentError::ResolverError(error) => write!(out, "{error}\n")?,
            _ => write!(out, "{error}\n")?,
        }
    }
    Ok(out)
}

/// That errors are those that are wanted.
pub fn are_told(
    alloc: Global,
    errors: &[FluentError],
    told: &Told,
    way: &str,
    report: &mut Report<'_>,
) -> Result<(), AllocError> {
    let found = lines(alloc, errors)?;
    report.same(told.errors.as_str(), found.as_str(), way)
}

// ---- whole calls

/// Formats what is asked for.
fn formats(
    alloc: Global,
    asked: &Asked<'_, '_, '_, '_>,
    told: &Told,
    report: &mut Report<'_>,
) -> Result<(), AllocError> {
    let mut errors = Vec::new(alloc);
    let way = asked.way("format_pattern", "format by id");
    match format(asked, &mut errors)? {
        Some(text) => report.same(told.formatted(), text.as_str(), way)?,
        None => report.holds(false, "no text by id")?,
    }
    let way = asked.way("errors of format_pattern", "errors of format by id");
    are_told(alloc, errors.as_slice(), told, way, report)
}

/// What a call wrote: its text and the lines of its errors.
pub type Written = (Vec<u8>, String);

/// Writes what is asked for to a writer that takes so many bytes at once, and has room for all; `None` where it fails.
pub fn write_whole(
    alloc: Global,
    asked: &Asked<'_, '_, '_, '_>,
    at_once: usize,
) -> Result<Option<Written>, AllocError> {
    let how = How {
        at_once,
        in_all: usize::MAX,
        fails: true,
    };
    let mut errors = Vec::new(alloc);
    let mut w = writer_of(alloc, how);
    let end = write(asked, &mut w, &mut errors);
    if end == End::Memory {
        return Err(AllocError);
    }
    if end != End::Whole || w.failed() != 0 || w.empty() != 0 {
        return Ok(None);
    }
    let errors = lines(alloc, errors.as_slice())?;
    Ok(Some((w.into_inner().taken, errors)))
}

/// Writes what is asked for so.
fn writes(
    alloc: Global,
    asked: &Asked<'_, '_, '_, '_>,
    told: &Told,
    at_once: usize,
    report: &mut Report<'_>,
) -> Result<(), AllocError> {
    let Some((taken, errors)) = write_whole(alloc, asked, at_once)? else {
        let way = asked.way(
            "write_pattern failed where a writer takes at once",
            "write by id failed where a writer takes at once",
        );
        return report.holds_at(false, way, at_once);
    };
    let text = str::from_utf8(taken.as_slice()).unwrap_or("no text");
    let way = asked.way("write_pattern", "write by id");
    report.same(told.text.as_str(), text, way)?;
    let way = asked.way("errors of write_pattern", "errors of write by id");
    report.same(told.errors.as_str(), errors.as_str(), way)
}

// ---- calls that stop

/// That a call on a full writer ended so, after one write that failed or took nothing, and none after it.
fn is_one_fault(how: How, end: End, failed: u64, empty: u64) -> bool {
    if how.fails {
        end == End::Writer && (failed, empty) == (1, 0)
    } else {
        end == End::Zero && (failed, empty) == (0, 1)
    }
}

/// That a full writer has taken the prefix of a text, as much as it may.
fn is_prefix(taken: &[u8], how: How, text: &str) -> bool {
    taken.len() == how.in_all && text.as_bytes().starts_with(taken)
}

/// Writes what is asked for to a writer that takes a prefix of its text: what it took is that, and the lines of the errors that
/// were added.
fn stopped(
    alloc: Global,
    asked: &Asked<'_, '_, '_, '_>,
    text: &str,
    how: How,
    report: &mut Report<'_>,
) -> Result<String, AllocError> {
    let mut errors = Vec::new(alloc);
    let mut w = writer_of(alloc, how);
    let end = write(asked, &mut w, &mut errors);
    if end == End::Memory {
        return Err(AllocError);
    }
    let is_one = is_one_fault(how, end, w.failed(), w.empty());
    let is_prefix = is_prefix(w.into_inner().taken.as_slice(), how, text);
    report.holds_at(
        is_one && is_prefix,
        asked.way(
            "write_pattern to a writer that is full",
            "write by id to a writer that is full",
        ),
        how.in_all,
    )?;
    lines(alloc, errors.as_slice())
}

/// Writes what is asked for to a writer that takes less than its text, after which the errors begin those of the row.
fn stops(
    alloc: Global,
    asked: &Asked<'_, '_, '_, '_>,
    told: &Told,
    how: How,
    report: &mut Report<'_>,
) -> Result<(), AllocError> {
    let found = stopped(alloc, asked, told.text.as_str(), how, report)?;
    let begin = told.errors.as_str().starts_with(found.as_str());
    report.holds_at(begin, "errors where a writer is full", how.in_all)
}

/// Full after the text of a row, in each way: the errors are exactly those of the row.
pub fn stops_after(
    alloc: Global,
    asked: &Asked<'_, '_, '_, '_>,
    told: &Told,
    report: &mut Report<'_>,
) -> Result<(), AllocError> {
    let text = told.text.as_str();
    for (at_once, fails) in [
        (usize::MAX, true),
        (usize::MAX, false),
        (1, true),
        (1, false),
    ] {
        let how = How {
            at_once,
            in_all: text.len(),
            fails,
        };
        let found = stopped(alloc, asked, text, how, report)?;
        report.same(
            told.errors.as_str(),
            found.as_str(),
            "errors where a writer is full",
        )?;
    }
    Ok(())
}

/// Whether a writer is to stop after so many bytes: after each of the first two hundred, and further each sixty-first.
fn is_tried(bytes: usize) -> bool {
    bytes < 200 || bytes % 61 == 0
}

/// Places where a writer may stop, by a fault or by taking nothing.
fn stops_everywhere(
    alloc: Global,
    asked: &Asked<'_, '_, '_, '_>,
    told: &Told,
    report: &mut Report<'_>,
) -> Result<(), AllocError> {
    for in_all in 0..told.text.len() {
        if !is_tried(in_all) {
            continue;
        }
        for fails in [true, false] {
            let how = How {
                at_once: usize::MAX,
                in_all,
                fails,
            };
            stops(alloc, asked, told, how, report)?;
        }
    }
    Ok(())
}

/// That nothing is found by id: no text is given and none written, and there is no error.
pub fn finds_nothing(
    alloc: Global,
    asked: &Asked<'_, '_, '_, '_>,
    report: &mut Report<'_>,
) -> Result<(), AllocError> {
    let mut errors = Vec::new(alloc);
    let text = format(asked, &mut errors)?;
    report.holds(text.is_none() && errors.is_empty(), "a text is given by id")?;
    let how = How {
        at_once: usize::MAX,
        in_all: usize::MAX,
        fails: true,
    };
    let mut w = writer_of(alloc, how);
    let end = write(asked, &mut w, &mut errors);
    if end == End::Memory {
        return Err(AllocError);
    }
    let is_untouched = w.into_inner().taken.is_empty() && errors.is_empty();
    report.holds(
        end == End::Nothing && is_untouched,
        "a text is written by id",
    )
}

/// Each way of a bundle.
pub fn hold(
    alloc: Global,
    asked: &Asked<'_, '_, '_, '_>,
    told: &Told,
    report: &mut Report<'_>,
) -> Result<(), AllocError> {
    formats(alloc, asked, told, report)?;
    writes(alloc, asked, told, usize::MAX, report)?;
    writes(alloc, asked, told, 1, report)?;
    stops_everywhere(alloc, asked, told, report)
}
