//! The arguments of a call.
use crate::texts::{first_word, unescaped};
use fluent_bundle::{FluentArgs, FluentValue, MergeArgs};
use std::alloc::{AllocError, Global};
use std::borrow::CowStr;
use test_contracts::fixtures::Star;

/// Arguments of a fixture.
pub type Args<'s> = FluentArgs<'s, Star>;

/// A value of a fixture.
pub type Value<'s> = FluentValue<'s, Star>;

/// Sets an argument that is written `NAME=VALUE`, with a number where the value reads as one. Whether it is.
fn set_plain<'s>(args: &mut Args<'s>, word: &'s str) -> Result<bool, AllocError> {
    let Some((name, text)) = word.split_once('=') else {
        return Ok(false);
    };
    args.set(CowStr::Borrowed(name), FluentValue::try_number(text))?;
    Ok(true)
}

/// The options that are written with semicolons between; `None` where one can't be read.
fn options_of<'s>(alloc: Global, words: &'s str) -> Result<Option<Args<'s>>, AllocError> {
    let mut args = FluentArgs::new(alloc);
    for word in words.split(';') {
        if !set_plain(&mut args, word)? {
            return Ok(None);
        }
    }
    Ok(Some(args))
}

/// A number with options, as `5;minimumFractionDigits=2`.
fn number_of<'s>(alloc: Global, words: &'s str) -> Result<Option<Value<'s>>, AllocError> {
    let Some((number, options)) = words.split_once(';') else {
        return Ok(None);
    };
    let Some(options) = options_of(alloc, options)? else {
        return Ok(None);
    };
    let read: Value<'s> = FluentValue::try_number(number);
    match read {
        FluentValue::Number(mut number) => {
            number.options.merge(alloc, &options)?;
            Ok(Some(FluentValue::Number(number)))
        }
        _ => Ok(None),
    }
}

/// A value by the word after an at sign.
fn object_of<'s>(alloc: Global, word: &'s str) -> Result<Option<Value<'s>>, AllocError> {
    match word.strip_prefix("number:") {
        Some(words) => number_of(alloc, words),
        None => Ok(match word {
            "star" => Some(FluentValue::Custom(Star)),
            "none" => Some(FluentValue::None),
            "error" => Some(FluentValue::Error),
            _ => None,
        }),
    }
}

/// The text in quotes, of which the first is left out.
fn quoted<'s>(alloc: Global, word: &str) -> Result<Option<Value<'s>>, AllocError> {
    let Some(text) = word.strip_suffix('"') else {
        return Ok(None);
    };
    match unescaped(alloc, text)? {
        Some(text) => Ok(Some(FluentValue::String(CowStr::Owned(text)))),
        None => Ok(None),
    }
}

/// The value that is written so; `None` where it can't be read.
fn value_of<'s>(alloc: Global, text: &'s str) -> Result<Option<Value<'s>>, AllocError> {
    if let Some(word) = text.strip_prefix('"') {
        return quoted(alloc, word);
    }
    match text.strip_prefix('@') {
        Some(word) => object_of(alloc, word),
        None => Ok(Some(FluentValue::try_number(text))),
    }
}

/// Sets an argument that is written `NAME=VALUE`. Whether it is.
fn set<'s>(alloc: Global, args: &mut Args<'s>, word: &'s str) -> Result<bool, AllocError> {
    let Some((name, text)) = word.split_once('=') else {
        return Ok(false);
    };
    let Some(value) = value_of(alloc, text)? else {
        return Ok(false);
    };
    args.set(CowStr::Borrowed(name), value)?;
    Ok(true)
}

/// The arguments that are written so, with blanks between; `None` where one can't be read.
pub fn arguments<'s>(alloc: Global, words: &'s str) -> Result<Option<Args<'s>>, AllocError> {
    let mut args = FluentArgs::new(alloc);
    let mut rest = words.trim_matches(' ');
    for _ in 0..words.len() {
        if rest.is_empty() {
            break;
        }
        let (word, after) = first_word(rest);
        if !set(alloc, &mut args, word)? {
            return Ok(None);
        }
        rest = after;
    }
    Ok(Some(args))
}
