//! Times the calls by id of a bundle.

use crate::format::{
    BATCHES, Bundle, arguments, bundle_of, empty, is_isolating, out_of_memory, read, say,
    say_answer,
};
use crate::request::bad_usage;
use fluent_bundle::{Counting, FluentArgs, FluentError, NoCustom};
use std::alloc::AllocError;
use std::io;
use std::time::Instant;

/// A message `ID`, or an attribute of it, `ID.ATTRIBUTE`.
#[derive(Clone, Copy)]
struct Asked<'w> {
    id: &'w str,
    attribute: Option<&'w str>,
}

impl<'w> Asked<'w> {
    fn of(word: &'w str) -> Self {
        match word.split_once('.') {
            Some((id, attribute)) => Asked {
                id,
                attribute: Some(attribute),
            },
            None => Asked {
                id: word,
                attribute: None,
            },
        }
    }
}

/// Formats what is asked for, and says whether it is there.
fn format_once(
    bundle: &Bundle<'_, '_>,
    asked: Asked<'_>,
    args: &FluentArgs<'_, NoCustom>,
    errors: &mut Vec<FluentError>,
) -> Result<bool, AllocError> {
    empty(errors);
    let text = match asked.attribute {
        Some(name) => bundle.format_attribute(asked.id, name, Some(args), errors)?,
        None => bundle.format_value(asked.id, Some(args), errors)?,
    };
    Ok(text.is_some())
}

/// The least time of a batch of calls that answer a text.
fn time_format(
    rt: &HostRuntime,
    turns: u32,
    bundle: &Bundle<'_, '_>,
    asked: Asked<'_>,
    args: &FluentArgs<'_, NoCustom>,
) -> io::Result<u128> {
    let mut errors = Vec::new(rt.alloc());
    let mut best = u128::MAX;
    for _ in 0..BATCHES {
        let start = Instant::now(rt)?;
        for _ in 0..turns {
            format_once(bundle, asked, args, &mut errors)?;
        }
        best = best.min(start.elapsed(rt)?.as_nanos());
    }
    Ok(best)
}

/// Writes what is asked for to a list of bytes, and says whether it was written whole.
fn write_once(
    bundle: &Bundle<'_, '_>,
    asked: Asked<'_>,
    args: &FluentArgs<'_, NoCustom>,
    bytes: &mut Vec<u8>,
    errors: &mut Vec<FluentError>,
) -> bool {
    empty(errors);
    bytes.clear();
    let writer = &mut Counting::new(bytes);
    let written = match asked.attribute {
        Some(name) => bundle.write_attribute(writer, asked.id, name, Some(args), errors),
        None => bundle.write_value(writer, asked.id, Some(args), errors),
    };
    written.is_ok()
}

/// The least time of a batch of calls that write, and how many bytes and errors such a call gives.
fn time_write(
    rt: &HostRuntime,
    turns: u32,
    bundle: &Bundle<'_, '_>,
    asked: Asked<'_>,
    args: &FluentArgs<'_, NoCustom>,
) -> io::Result<(u128, usize, usize)> {
    let mut errors = Vec::new(rt.alloc());
    let mut bytes = Vec::new(rt.alloc());
    let mut best = u128::MAX;
    for _ in 0..BATCHES {
        let start = Instant::now(rt)?;
        for _ in 0..turns {
            if !write_once(bundle, asked, args, &mut bytes, &mut errors) {
                return Err(out_of_memory());
            }
        }
        best = best.min(start.elapsed(rt)?.as_nanos());
    }
    Ok((best, bytes.len(), errors.len()))
}

/// Looks the message that the words name up and formats it, in batches of so many calls; says how long a call takes,
/// and what it gives.
pub fn time_values(rt: &HostRuntime, source: &str, turns: u32, words: &[String]) -> io::Result<()> {
    let resource = read(rt.alloc(), source)?;
    let bundle = bundle_of(rt.alloc(), is_isolating(words), &resource)?;
    let args = arguments(rt.alloc(), words)?;
    let Some(word) = words.get(1) else {
        return Err(bad_usage());
    };
    let asked = Asked::of(word.as_str());
    let mut errors = Vec::new(rt.alloc());
    if !format_once(&bundle, asked, &args, &mut errors)? {
        return Err(io::Error::from(io::ErrorKind::NotFound));
    }
    let answered = time_format(rt, turns, &bundle, asked, &args)?;
    let (written, bytes, errors) = time_write(rt, turns, &bundle, asked, &args)?;
    say_answer(rt, bytes, errors)?;
    say(rt, "format_value", answered, turns)?;
    say(rt, "write_value", written, turns)
}
