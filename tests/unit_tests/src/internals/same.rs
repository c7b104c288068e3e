//! Copies of values, and which of them are the same.
use fluent_values::types::FluentValue;
use std::alloc::{AllocError, Global};
use std::borrow::CowStr;
use std::test::Fail;
use test_contracts::shade::Shade;

/// Values that differ in kind or in content; of the last two each is the same as nothing.
fn value_at<'s>(i: usize) -> FluentValue<'s, Shade> {
    match i {
        0 => FluentValue::from("a"),
        1 => FluentValue::from("b"),
        2 => FluentValue::from("one"),
        3 => FluentValue::try_number("1"),
        4 => FluentValue::try_number("1."),
        5 => FluentValue::try_number("1.0"),
        6 => FluentValue::try_number("2"),
        7 => FluentValue::Custom(Shade(1)),
        8 => FluentValue::Custom(Shade(2)),
        9 => FluentValue::None,
        _ => FluentValue::Error,
    }
}

/// How many values there are, and how many of them are the same as themselves.
const ALL: usize = 11;

const ALONE: usize = 9;

/// That a value which was copied is the one at a place.
fn is_at(value: FluentValue<'_, Shade>, i: usize) -> bool {
    value.same(&value_at(i)) == (i < ALONE)
}

/// That copies of a value are the same.
fn is_copied(alloc: Global, i: usize) -> Result<bool, AllocError> {
    let value = value_at(i);
    Ok(is_at(value.try_clone(alloc)?, i) && is_at(value.into_owned(alloc)?, i))
}

/// Run with each allocation failing in turn: a copy that is refused can be made again.
#[test]
fn copies_are_the_same(rt: HostRuntime) -> Result<(), Fail> {
    for i in 0..ALL {
        let copied = match is_copied(rt.alloc(), i) {
            Ok(copied) => copied,
            Err(AllocError) => is_copied(rt.alloc(), i)?,
        };
        assert!(rt; copied, "at {i}");
    }
    Ok(())
}

/// That a copy of a text that is borrowed is borrowed.
fn stays_borrowed(alloc: Global) -> Result<bool, AllocError> {
    let copy = value_at(0).try_clone(alloc)?;
    Ok(matches!(copy, FluentValue::String(CowStr::Borrowed(_))))
}

#[test]
fn borrowed_texts_stay_borrowed(rt: HostRuntime) -> Result<(), Fail> {
    assert!(rt; stays_borrowed(rt.alloc())?);
    Ok(())
}
