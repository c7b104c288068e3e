//! Times the formatting calls of a bundle.

use crate::request::bad_usage;
use fluent_bundle::ast::Pattern;
use fluent_bundle::{
    AddFault, Counting, FluentArgs, FluentBundle, FluentError, FluentResource, FluentValue,
    NoCustom, NoFormatter, NoFunction, NoTransform, TryNewFault,
};
use fluent_intl::EnglishPlurals;
use std::alloc::Global;
use std::borrow::CowStr;
use std::io;
use std::time::Instant;

pub type Bundle<'r, 's> = FluentBundle<
    'r,
    's,
    EnglishPlurals,
    NoCustom,
    NoFunction,
    NoFormatter,
    NoTransform,
>;

/// A figure is the best of so many batches.
pub const BATCHES: u32 = 5;

pub fn out_of_memory() -> io::Error {
    io::Error::from(io::ErrorKind::OutOfMemory)
}

/// A resource of what could be read of a source.
pub fn read<'s>(alloc: Global, source: &'s str) -> io::Result<FluentResource<'s>> {
    match FluentResource::try_new(alloc, source) {
        Ok(resource) => Ok(resource),
        Err(TryNewFault::Parser(resource, _)) => Ok(resource),
        Err(TryNewFault::Memory) => Err(out_of_memory()),
    }
}

/// A bundle of a resource, with the built-in function.
pub fn bundle_of<'r, 's>(
    alloc: Global,
    isolate: bool,
    resource: &'r FluentResource<'s>,
) -> io::Result<Bundle<'r, 's>> {
    let mut bundle = FluentBundle::new_default(alloc)?;
    bundle.set_use_isolating(isolate);
    if let Err(AddFault::Memory) = bundle.add_builtins() {
        return Err(out_of_memory());
    }
    match bundle.add_resource(resource) {
        Err(AddFault::Memory) => Err(out_of_memory()),
        _ => Ok(bundle),
    }
}

/// The value of a message `ID`, or of its attribute, `ID.ATTRIBUTE`.
fn pattern_of<'m, 's>(bundle: &'m Bundle<'_, 's>, id: &str) -> Option<&'m Pattern<'s>> {
    match id.split_once('.') {
        Some((message, attribute)) => match bundle.get_message(message)?.get_attribute(attribute) {
            Some(found) => Some(found.value()),
            None => None,
        },
        None => bundle.get_message(id)?.value(),
    }
}

/// The arguments that words `NAME=VALUE` give; the other words give none.
pub fn arguments<'w>(alloc: Global, words: &'w [String]) -> io::Result<FluentArgs<'w, NoCustom>> {
    let mut args = FluentArgs::new(alloc);
    for word in words {
        if let Some((name, value)) = word.as_str().split_once('=') {
            args.set(CowStr::Borrowed(name), FluentValue::try_number(value))?;
        }
    }
    Ok(args)
}

/// Writes a figure of a turn, in nanoseconds with one place.
pub fn say(rt: &HostRuntime, call: &str, nanoseconds: u128, turns: u32) -> io::Result<()> {
    let tenths = nanoseconds
        .saturating_mul(10)
        .checked_div(turns as u128)
        .unwrap_or(0);
    let (whole, tenth) = (tenths / 10, tenths % 10);
    eprintln!(rt; "{call} {whole}.{tenth} ns")?;
    Ok(())
}

/// Writes what a call gives.
pub fn say_answer(rt: &HostRuntime, bytes: usize, errors: usize) -> io::Result<()> {
    println!(rt; "{bytes} bytes, {errors} errors")?;
    Ok(())
}

/// Whether the words leave isolation on.
pub fn is_isolating(words: &[String]) -> bool {
    !words.iter().any(|word| word.as_str() == "--no-isolate")
}

/// Takes out what a call before added, if it added any.
#[inline(always)]
pub fn empty(errors: &mut Vec<FluentError>) {
    if !errors.is_empty() {
        errors.clear();
    }
}

/// The least time of a batch of calls that answer a text.
fn time_format<'s>(
    rt: &HostRuntime,
    turns: u32,
    bundle: &Bundle<'_, 's>,
    pattern: &Pattern<'s>,
    args: &FluentArgs<'_, NoCustom>,
) -> io::Result<u128> {
    let mut errors = Vec::new(rt.alloc());
    let mut best = u128::MAX;
    for _ in 0..BATCHES {
        let start = Instant::now(rt)?;
        for _ in 0..turns {
            empty(&mut errors);
            bundle.format_pattern(pattern, Some(args), &mut errors)?;
        }
        best = best.min(start.elapsed(rt)?.as_nanos());
    }
    Ok(best)
}

/// Writes a pattern to a list of bytes, and says whether it was written whole.
fn write_once<'s>(
    bundle: &Bundle<'_, 's>,
    pattern: &Pattern<'s>,
    args: &FluentArgs<'_, NoCustom>,
    bytes: &mut Vec<u8>,
    errors: &mut Vec<FluentError>,
) -> bool {
    empty(errors);
    bytes.clear();
    bundle
        .write_pattern(&mut Counting::new(bytes), pattern, Some(args), errors)
        .is_ok()
}

/// The least time of a batch of calls that write, and how many bytes and errors such a call gives.
fn time_write<'s>(
    rt: &HostRuntime,
    turns: u32,
    bundle: &Bundle<'_, 's>,
    pattern: &Pattern<'s>,
    args: &FluentArgs<'_, NoCustom>,
) -> io::Result<(u128, usize, usize)> {
    let mut errors = Vec::new(rt.alloc());
    let mut bytes = Vec::new(rt.alloc());
    let mut best = u128::MAX;
    for _ in 0..BATCHES {
        let start = Instant::now(rt)?;
        for _ in 0..turns {
            if !write_once(bundle, pattern, args, &mut bytes, &mut errors) {
                return Err(out_of_memory());
            }
        }
        best = best.min(start.elapsed(rt)?.as_nanos());
    }
    Ok((best, bytes.len(), errors.len()))
}

/// Formats the message that the words name, in batches of so many calls; says how long a call takes, and what it
/// gives.
pub fn time_formatting(
    rt: &HostRuntime,
    source: &str,
    turns: u32,
    words: &[String],
) -> io::Result<()> {
    let resource = read(rt.alloc(), source)?;
    let bundle = bundle_of(rt.alloc(), is_isolating(words), &resource)?;
    let args = arguments(rt.alloc(), words)?;
    let Some(id) = words.get(1) else {
        return Err(bad_usage());
    };
    let Some(pattern) = pattern_of(&bundle, id.as_str()) else {
        return Err(io::Error::from(io::ErrorKind::NotFound));
    };
    let answered = time_format(rt, turns, &bundle, pattern, &args)?;
    let (written, bytes, errors) = time_write(rt, turns, &bundle, pattern, &args)?;
    say_answer(rt, bytes, errors)?;
    say(rt, "format_pattern", answered, turns)?;
    say(rt, "write_pattern", written, turns)
}
