//! Sources that are cut, or have a sign in place of one of their characters: Junk and entries make them up, and every
//! message of them gives a text, alike in each way, with marks in balance and at most one report of the limit.
use crate::bundles::{Bundle, Source, read, set, settled};
use crate::chunks::make_up;
use crate::fixture::{Described, Fixture, Part};
use crate::report::Report;
use crate::values::{Args, arguments};
use crate::ways::{Asked, Written, call_for, format, lines, write_whole};
use fluent_bundle::FluentMessage;
use fluent_bundle::ast::{Entry, Pattern};
use std::alloc::{AllocError, Global};

/// The signs that the grammar gives a meaning.
const SIGNS: &[&str] = &[
    "{", "}", "[", "]", "(", ")", ".", "-", "*", "$", "#", "=", ":", ",", "\"", "\\", " ", "\n",
    "\r",
];

/// Whether a pattern is formatted as it is written, where no formatter is set, and with the same errors.
fn is_alike(
    alloc: Global,
    asked: &Asked<'_, '_, '_, '_>,
    written: &Written,
    has_formatter: bool,
) -> Result<bool, AllocError> {
    let mut errors = Vec::new(alloc);
    let Some(text) = format(asked, &mut errors)? else {
        return Ok(false);
    };
    let found = lines(alloc, errors.as_slice())?;
    let is_same = has_formatter || text.as_str().as_bytes() == written.0.as_slice();
    Ok(is_same && found.as_str() == written.1.as_str())
}

/// Whether a call answers alike in each way.
fn answers(
    alloc: Global,
    asked: &Asked<'_, '_, '_, '_>,
    has_formatter: bool,
) -> Result<bool, AllocError> {
    match write_whole(alloc, asked, usize::MAX)? {
        Some(written) => Ok(is_well(&written) && is_alike(alloc, asked, &written, has_formatter)?),
        None => Ok(false),
    }
}

/// How often a part stands in a text.
fn count(text: &[u8], part: &[u8]) -> usize {
    let mut found = 0usize;
    for place in 0..text.len() {
        if text[place..].starts_with(part) {
            found = found.saturating_add(1);
        }
    }
    found
}

/// Whether each U+2068 of a text has its U+2069, and the limit is reported once at most.
fn is_well(written: &Written) -> bool {
    let text = written.0.as_slice();
    let reaches_limit = count(written.1.as_str().as_bytes(), b"Too many placeables");
    count(text, &[0xe2, 0x81, 0xa8]) == count(text, &[0xe2, 0x81, 0xa9]) && reaches_limit <= 1
}

/// Whether a pattern gives a text, with arguments and without.
fn pattern_answers<'x, 's, 'f>(
    alloc: Global,
    bundle: &'x Bundle<'_, 's, 'f>,
    pattern: &'x Pattern<'s>,
    given: &'x Args<'f>,
    has_formatter: bool,
) -> Result<bool, AllocError> {
    let is_right = answers(
        alloc,
        &call_for(bundle, pattern, Some(given)),
        has_formatter,
    )?;
    Ok(is_right && answers(alloc, &call_for(bundle, pattern, None), has_formatter)?)
}

/// Whether the value of a message and its attributes do.
fn message_answers<'s, 'f>(
    alloc: Global,
    bundle: &Bundle<'_, 's, 'f>,
    message: FluentMessage<'_, 's>,
    given: &Args<'f>,
    has_formatter: bool,
) -> Result<bool, AllocError> {
    if let Some(value) = message.value()
        && !pattern_answers(alloc, bundle, value, given, has_formatter)?
    {
        return Ok(false);
    }
    for attribute in message.attributes() {
        if !pattern_answers(alloc, bundle, attribute.value(), given, has_formatter)? {
            return Ok(false);
        }
    }
    Ok(true)
}

/// Whether every message of a source does.
fn messages_answer<'s, 'f>(
    alloc: Global,
    bundle: &Bundle<'_, 's, 'f>,
    source: &Source<'s>,
    given: &Args<'f>,
    has_formatter: bool,
) -> Result<bool, AllocError> {
    for entry in source.resource.entries() {
        if let Entry::Message(message) = entry {
            let message = FluentMessage::from(message);
            if !message_answers(alloc, bundle, message, given, has_formatter)? {
                return Ok(false);
            }
        }
    }
    Ok(true)
}

/// The arguments of the first row of a bundle that has some.
fn first_arguments<'s>(fixture: &Fixture<'s>, number: usize) -> &'s str {
    for row in &fixture.rows {
        if row.bundle == number && !row.arguments.is_empty() {
            return row.arguments;
        }
    }
    ""
}

/// The bundle of a fixture whose resource is damaged, and its number.
#[derive(Clone, Copy, Drop)]
struct Damaged<'x, 's> {
    fixture: &'x Fixture<'s>,
    described: &'x Described<'s>,
    number: usize,
    part: &'x Part<'s>,
}

/// Whether the calls of a bundle answer whose source is this one.
fn answer_in<'s, 'f: 's>(
    alloc: Global,
    damaged: &Damaged<'_, 'f>,
    source: &'s str,
    report: &mut Report<'_>,
) -> Result<bool, AllocError> {
    let settings = &damaged.described.settings;
    let source = read(alloc, source)?;
    if !make_up(alloc, &source)? {
        return Ok(false);
    }
    let mut left = String::new(alloc);
    let functions = damaged.fixture.functions.as_slice();
    let mut bundle = settled(alloc, functions, settings, &mut left, report)?;
    let _ = set(&mut bundle, settings);
    bundle.add_resource_overriding(&source.resource)?;
    let Some(args) = arguments(alloc, first_arguments(damaged.fixture, damaged.number))? else {
        return Ok(false);
    };
    messages_answer(alloc, &bundle, &source, &args, settings.formatter.is_some())
}

/// Each cut of the source.
fn hold_cut(
    alloc: Global,
    damaged: &Damaged<'_, '_>,
    report: &mut Report<'_>,
) -> Result<(), AllocError> {
    let source = damaged.part.source;
    for at in 0..source.len() {
        if let Some((prefix, _)) = source.split_at_checked(at) {
            let is_right = answer_in(alloc, damaged, prefix, report)?;
            report.holds_at(is_right, "the source that is cut", at)?;
        }
    }
    Ok(())
}

/// A source with a sign in place of the character at a place; `None` in the middle of one.
fn replaced(
    alloc: Global,
    source: &str,
    at: usize,
    sign: &str,
) -> Result<Option<String>, AllocError> {
    let Some((prefix, rest)) = source.split_at_checked(at) else {
        return Ok(None);
    };
    let mut signs = rest.chars();
    let _replaced = signs.next();
    let mut out = String::from_str(alloc, prefix)?;
    out.push_str(sign)?;
    out.push_str(signs.as_str())?;
    Ok(Some(out))
}

/// The source with a sign in each place.
fn hold_replaced(
    alloc: Global,
    damaged: &Damaged<'_, '_>,
    sign: &str,
    report: &mut Report<'_>,
) -> Result<(), AllocError> {
    for at in 0..damaged.part.source.len() {
        if let Some(source) = replaced(alloc, damaged.part.source, at, sign)? {
            let is_right = answer_in(alloc, damaged, source.as_str(), report)?;
            report.holds_at(is_right, "the source with another sign", at)?;
        }
    }
    Ok(())
}

/// What a bundle's settings ask for.
fn holds(
    alloc: Global,
    damaged: &Damaged<'_, '_>,
    report: &mut Report<'_>,
) -> Result<(), AllocError> {
    report.at(damaged.part.line);
    if damaged.described.settings.is_cut {
        hold_cut(alloc, damaged, report)?;
    }
    if damaged.described.settings.is_replaced {
        for sign in SIGNS {
            hold_replaced(alloc, damaged, *sign, report)?;
        }
    }
    Ok(())
}

/// The first resource of a bundle.
fn first_of<'x, 's>(fixture: &'x Fixture<'s>, bundle: usize) -> Option<&'x Part<'s>> {
    for part in &fixture.parts {
        if part.bundle == bundle {
            return Some(part);
        }
    }
    None
}

/// What the settings of a fixture's bundles ask for.
pub fn hold(
    alloc: Global,
    fixture: &Fixture<'_>,
    report: &mut Report<'_>,
) -> Result<(), AllocError> {
    for (number, described) in fixture.bundles.iter().enumerate() {
        if let Some(part) = first_of(fixture, described.resources_of) {
            let damaged = Damaged {
                fixture,
                described,
                number,
                part,
            };
            holds(alloc, &damaged, report)?;
        }
    }
    Ok(())
}
