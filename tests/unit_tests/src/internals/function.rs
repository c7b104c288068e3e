//! Functions of an application that are kept, and the objects that stand for none of an application's own.

use crate::internals::common::{Given, is_shown, values};
use fluent_intl::EnglishPlurals;
use fluent_values::types::{FluentType, FluentValue, NoCustom};
use fluent_values::{
    FluentArgs, FluentFormatter, FluentFunction, NoFormatter, NoFunction, NoTransform, Transform,
};
use std::alloc::{AllocError, Global};
use std::test::Fail;
use test_contracts::functions::{captured, first_by_closure, first_by_function};

const BOTH: &[Given] = &[Given::Text("a"), Given::Text("b")];

/// Whether the call of each function that is kept, with these values and no named arguments, is shown so: of two that answer the first
/// value, and of one that answers what it has captured.
fn answer_so(
    alloc: Global,
    positional: &[Given],
    first: &str,
    greeting: &str,
) -> Result<bool, AllocError> {
    let positional = values(alloc, positional)?;
    let arguments = FluentArgs::new(alloc);
    let by_function = first_by_function(alloc, positional.as_slice(), &arguments)?;
    let by_closure = first_by_closure(alloc, positional.as_slice(), &arguments)?;
    let by_capture = captured(alloc, positional.as_slice(), &arguments)?;
    Ok(
        is_shown(alloc, &by_function, first)?
            && is_shown(alloc, &by_closure, first)?
            && is_shown(alloc, &by_capture, greeting)?,
    )
}

/// Whether no function answers an error, whatever it is given.
fn no_function(alloc: Global, positional: &[Given]) -> Result<bool, AllocError> {
    let positional = values(alloc, positional)?;
    let arguments = FluentArgs::new(alloc);
    let answer: FluentValue<'_, NoCustom> = NoFunction.call(
        alloc,
        positional.as_slice(),
        &arguments,
    )?;
    is_shown(alloc, &answer, "error")
}

/// Run with each allocation failing in turn.
#[test]
fn a_kept_function_answers_by_its_rule_and_no_function_an_error(
    rt: HostRuntime,
) -> Result<(), Fail> {
    assert!(rt; answer_so(rt.alloc(), BOTH, "\"a\"", "\"hello\"")?);
    assert!(rt; answer_so(rt.alloc(), &[], "error", "\"hello\"")?);
    assert!(rt; no_function(rt.alloc(), BOTH)?);
    assert!(rt; no_function(rt.alloc(), &[])?);
    Ok(())
}

// ---- none of an application's own

/// A custom value that is none has the empty text.
fn no_custom_value(alloc: Global) -> Result<bool, AllocError> {
    let copy = NoCustom.duplicate(alloc)?;
    Ok(copy.as_string(alloc)?.is_empty() && copy.same(&NoCustom))
}

/// A formatter that is none leaves a value to its own text.
fn no_formatter(alloc: Global) -> Result<bool, AllocError> {
    let value: FluentValue<'_, NoCustom> = FluentValue::from("a");
    let shown = NoFormatter.format(alloc, &value, &EnglishPlurals)?;
    Ok(shown.is_none())
}

/// Whether a transform leaves a text as it is.
fn changes_nothing<T: Transform>(alloc: Global, transform: &T) -> Result<bool, AllocError> {
    let text = transform.transform(alloc, "abc")?;
    Ok(text.as_str() == "abc")
}

fn boxed(alloc: Global) -> Result<bool, AllocError> {
    let boxed: Box<dyn Transform> = Box::new(alloc, NoTransform)?;
    changes_nothing(alloc, &boxed)
}

/// Run with each allocation failing in turn.
#[test]
fn what_is_none_changes_nothing(rt: HostRuntime) -> Result<(), Fail> {
    assert!(rt; no_custom_value(rt.alloc())?);
    assert!(rt; no_formatter(rt.alloc())?);
    assert!(rt; changes_nothing(rt.alloc(), &NoTransform)?);
    assert!(rt; boxed(rt.alloc())?);
    Ok(())
}
