//! Values as keys and as texts in a scope.
use crate::check::check;
use crate::public_api::common::{Bundle, empty};
use fluent_bundle::{
    Counting, FluentError, FluentValue, NoCustom, ResolverError, Scope, WriteFault,
};
use std::alloc::{AllocError, Global};
use std::borrow::CowStr;
use std::test::Fail;
use test_contracts::own::Bracketed;

type Value = FluentValue<'static, NoCustom>;

/// A key, a selector, and whether they match in English: each is a number where it reads as one.
const KEYS: &[(&str, &str, bool)] = &[
    ("one", "1", true),
    ("two", "2", false),
    ("2", "2", true),
    ("1", "1.0", false),
    ("a", "a", true),
    ("1", "one", false),
];

/// Whether a key matches a selector.
fn meets<'r, 's: 'r>(bundle: &Bundle<'r, 's>, key: &'static str, selector: &'static str) -> bool {
    let scope = Scope::new(bundle, bundle.ids(), None, None);
    let key: Value = FluentValue::try_number(key);
    key.matches(&FluentValue::try_number(selector), &scope)
}

fn write<'r, 's: 'r>(bundle: &Bundle<'r, 's>, w: &mut Counting<Vec<u8>>) -> Result<(), WriteFault> {
    let scope = Scope::new(bundle, bundle.ids(), None, None);
    let value: Value = FluentValue::from("a");
    value.write(w, &scope)
}

/// Whether a value is written as this text, where no allocation fails.
fn is_written<'r, 's: 'r>(
    alloc: Global,
    bundle: &Bundle<'r, 's>,
    text: &str,
) -> Result<bool, AllocError> {
    let mut w = Counting::new(Vec::with_capacity(alloc, 50)?);
    match write(bundle, &mut w) {
        Ok(()) => Ok(w.into_inner().as_slice() == text.as_bytes()),
        Err(WriteFault::Memory) => Err(AllocError),
        Err(_) => Ok(false),
    }
}

/// Whether a value's own text and an error take no memory where there is room for them.
fn fit<'r, 's: 'r>(
    bundle: &Bundle<'r, 's>,
    w: &mut Counting<Vec<u8>>,
    errors: &mut Vec<FluentError>,
) -> bool {
    let is_written = write(bundle, w).is_ok();
    let mut scope: Scope<'_, '_, '_, '_, '_, NoCustom, _, _> = Scope::new(
        bundle,
        bundle.ids(),
        None,
        Some(errors),
    );
    scope.add_error(ResolverError::Cyclic).is_ok() && is_written
}

/// Whether a call answered this text.
fn is_text(answer: Result<CowStr<'_>, AllocError>, text: &str) -> Result<bool, AllocError> {
    Ok(answer?.as_str() == text)
}

fn is_borrowed<'r, 's: 'r>(bundle: &Bundle<'r, 's>, text: &str) -> Result<bool, AllocError> {
    let scope = Scope::new(bundle, bundle.ids(), None, None);
    let value: Value = FluentValue::from("a");
    is_text(value.as_string(&scope), text)
}

fn is_given<'r, 's: 'r>(bundle: &Bundle<'r, 's>, text: &str) -> Result<bool, AllocError> {
    let scope = Scope::new(bundle, bundle.ids(), None, None);
    let value: Value = FluentValue::from("a");
    is_text(value.into_string(&scope), text)
}

/// Run with each allocation failing in turn.
#[test]
fn values_are_keys_and_have_texts(rt: HostRuntime) -> Result<(), Fail> {
    let mut bundle: Bundle<'_, '_> = empty(rt.alloc());
    for (key, selector, wanted) in KEYS {
        check(&rt, meets(&bundle, *key, *selector) == *wanted, *key);
    }
    let mut w = Counting::new(Vec::with_capacity(rt.alloc(), 9)?);
    let mut errors = Vec::with_capacity(rt.alloc(), 1)?;
    check(&rt, fit(&bundle, &mut w, &mut errors), "what has room");
    bundle.set_formatter(Some(Bracketed));
    check(
        &rt,
        is_written(rt.alloc(), &bundle, "[a]")?,
        "what is written",
    );
    check(&rt, is_borrowed(&bundle, "[a]")?, "what is borrowed");
    check(&rt, is_given(&bundle, "[a]")?, "what is given");
    Ok(())
}
