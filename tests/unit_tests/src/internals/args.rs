//! Arguments: each call once, also where an allocation fails.
use crate::internals::common::{Given, MANY, Named, arguments, many, nth_name, value};
use fluent_values::FluentArgs;
use fluent_values::types::{FluentValue, NoCustom};
use std::alloc::{AllocError, Global};
use std::borrow::CowStr;
use std::process::Abort;
use std::test::Fail;

const GIVEN: &[Named] = &[
    ("b", Given::Number(1)),
    ("a", Given::Number(2)),
    ("b", Given::Number(3)),
    ("B", Given::Number(4)),
    ("ab", Given::Number(5)),
];

/// The names in the order of their bytes, each with the last value that it was given.
const SET: &[Named] = &[
    ("B", Given::Number(4)),
    ("a", Given::Number(2)),
    ("ab", Given::Number(5)),
    ("b", Given::Number(3)),
];

/// That a value is the one of a row, and there is none where the row gives nothing.
fn is_given(found: Option<&FluentValue<'_, NoCustom>>, given: Given) -> bool {
    match found {
        Some(found) => found.same(&value(given)),
        None => matches!(given, Given::Nothing),
    }
}

/// That a pair that arguments give is the one of a row.
fn is_borrowed(pair: Option<(&str, &FluentValue<'_, NoCustom>)>, row: &Named) -> bool {
    match pair {
        Some((name, value)) => name == row.0 && is_given(Some(value), row.1),
        None => false,
    }
}

/// That arguments give these pairs, and then none, however often they are asked.
fn lend(args: &FluentArgs<'_, NoCustom>, rows: &[Named]) -> bool {
    let mut borrowed = args.iter();
    for row in rows {
        if !is_borrowed(borrowed.next(), row) {
            return false;
        }
    }
    borrowed.next().is_none() && borrowed.next().is_none()
}

/// That a pair that arguments give is the one of a row.
fn is_given_away(pair: Option<(CowStr<'_>, FluentValue<'_, NoCustom>)>, row: &Named) -> bool {
    match pair {
        Some((name, value)) => is_borrowed(Some((name.as_str(), &value)), row),
        None => false,
    }
}

/// That arguments give these pairs, and then none.
fn give(args: FluentArgs<'_, NoCustom>, rows: &[Named]) -> bool {
    let mut given = args.into_iter();
    for row in rows {
        if !is_given_away(given.next(), row) {
            return false;
        }
    }
    given.next().is_none()
}

#[test]
fn names_come_in_order_with_their_last_value(rt: HostRuntime) -> Result<(), Fail> {
    let args = arguments(rt.alloc(), GIVEN)?;
    assert!(rt; lend(&args, SET));
    assert!(rt; give(args, SET));
    Ok(())
}

/// A name, whether it is owned, what it has before, and what it is given.
type Set = (&'static str, bool, Given, Given);

/// One name is set twice and another once, then a third twice.
const SETS: &[Set] = &[
    ("name", false, Given::Nothing, Given::Number(1)),
    ("other", true, Given::Nothing, Given::Number(2)),
    ("name", false, Given::Number(1), Given::Number(3)),
    ("x", false, Given::Nothing, Given::Number(1)),
    ("x", false, Given::Number(1), Given::Number(2)),
];

/// What each name has then; a name that has nothing isn't there.
const HELD: &[Named] = &[
    ("name", Given::Number(3)),
    ("other", Given::Number(2)),
    ("nam", Given::Nothing),
];

fn name(alloc: Global, text: &'static str, owned: bool) -> Result<CowStr<'static>, AllocError> {
    if owned {
        return Ok(CowStr::Owned(String::from_str(alloc, text)?));
    }
    Ok(CowStr::Borrowed(text))
}

fn set(
    args: &mut FluentArgs<'static, NoCustom>,
    alloc: Global,
    row: &Set,
) -> Result<(), AllocError> {
    args.set(name(alloc, row.0, row.1)?, value(row.3))
}

fn has(args: &FluentArgs<'_, NoCustom>, name: &str, given: Given) -> bool {
    is_given(args.get(name), given)
}

/// A refused `set` leaves the arguments as they were, and succeeds when it is repeated; that of a name which is there
/// never fails.
fn is_set(
    rt: &impl Abort,
    alloc: Global,
    args: &mut FluentArgs<'static, NoCustom>,
    row: &Set,
) -> Result<(), AllocError> {
    assert!(rt; has(args, row.0, row.2));
    if set(args, alloc, row).is_err() {
        assert!(rt; matches!(row.2, Given::Nothing) && has(args, row.0, row.2));
        set(args, alloc, row)?;
    }
    assert!(rt; has(args, row.0, row.3));
    Ok(())
}

/// Run with each allocation failing in turn.
#[test]
fn a_name_has_what_it_was_given_last(rt: HostRuntime) -> Result<(), Fail> {
    let mut args: FluentArgs<'_, NoCustom> = FluentArgs::with_capacity(rt.alloc(), usize::MAX)?;
    assert!(rt; lend(&args, &[]));
    for row in SETS {
        is_set(&rt, rt.alloc(), &mut args, row)?;
    }
    for (name, given) in HELD {
        assert!(rt; has(&args, *name, *given));
    }
    Ok(())
}

/// That arguments have for a name its place.
fn has_nth(alloc: Global, args: &FluentArgs<'_, NoCustom>, i: usize) -> Result<bool, AllocError> {
    match args.get(nth_name(alloc, i)?.as_str()) {
        Some(found) => Ok(found.same(&FluentValue::from(i))),
        None => Ok(false),
    }
}

/// No name is refused for being one of many.
#[test]
fn many_names_are_taken(rt: HostRuntime) -> Result<(), Fail> {
    let args = many(rt.alloc())?;
    for i in 0..MANY {
        assert!(rt; has_nth(rt.alloc(), &args, i)?, "n{i}");
    }
    Ok(())
}
