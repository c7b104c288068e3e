//! What the tests share: values that rows give, and how a value is shown in a row.
use fluent_values::FluentArgs;
use fluent_values::types::{FluentValue, NoCustom};
use std::alloc::{AllocError, Global};
use std::borrow::CowStr;

/// What a row gives for a value.
#[derive(Clone, Copy, Drop)]
pub enum Given {
    Text(&'static str),
    Number(i32),
    Nothing,
}

/// A name and what it is given.
pub type Named = (&'static str, Given);

pub fn value<'s>(given: Given) -> FluentValue<'s, NoCustom> {
    match given {
        Given::Text(text) => FluentValue::from(text),
        Given::Number(number) => FluentValue::from(number),
        Given::Nothing => FluentValue::None,
    }
}

/// The values of a row, in order.
pub fn values<'s>(
    alloc: Global,
    row: &[Given],
) -> Result<Vec<FluentValue<'s, NoCustom>>, AllocError> {
    let mut values = Vec::new(alloc);
    for given in row {
        values.push(value(*given))?;
    }
    Ok(values)
}

type Pair = (CowStr<'static>, FluentValue<'static, NoCustom>);

fn pair(name: &'static str, given: Given) -> Pair {
    (CowStr::Borrowed(name), value(given))
}

fn pairs(alloc: Global, row: &[Named]) -> Result<Vec<Pair>, AllocError> {
    let mut pairs = Vec::new(alloc);
    for (name, given) in row {
        pairs.push(pair(*name, *given))?;
    }
    Ok(pairs)
}

/// The arguments of a row.
pub fn arguments(
    alloc: Global,
    row: &[Named],
) -> Result<FluentArgs<'static, NoCustom>, AllocError> {
    FluentArgs::try_from_iter(alloc, pairs(alloc, row)?.into_iter())
}

/// How many arguments `many` makes.
pub const MANY: usize = 51;

/// The name of an argument by its place.
pub fn nth_name(alloc: Global, i: usize) -> Result<String, AllocError> {
    format!(in alloc; "n{i}")
}

/// Arguments that have each its place for a value.
pub fn many(alloc: Global) -> Result<FluentArgs<'static, NoCustom>, AllocError> {
    let mut args = FluentArgs::new(alloc);
    for i in 0..MANY {
        args.set(CowStr::Owned(nth_name(alloc, i)?), FluentValue::from(i))?;
    }
    Ok(args)
}

/// A text in quotes.
fn quoted(alloc: Global, text: &str) -> Result<CowStr<'static>, AllocError> {
    Ok(CowStr::Owned(format!(in alloc; "\"{text}\"")?))
}

/// How a row shows a value: a number by its text, a text in quotes.
fn shown(alloc: Global, value: &FluentValue<'_, NoCustom>) -> Result<CowStr<'static>, AllocError> {
    match value {
        FluentValue::Number(number) => number.as_string(alloc),
        FluentValue::String(text) => quoted(alloc, text.as_str()),
        FluentValue::None => Ok(CowStr::Borrowed("nothing")),
        _ => Ok(CowStr::Borrowed("error")),
    }
}

/// That a value is the one that a row shows.
pub fn is_shown(
    alloc: Global,
    value: &FluentValue<'_, NoCustom>,
    text: &str,
) -> Result<bool, AllocError> {
    Ok(shown(alloc, value)?.as_str() == text)
}
