//! Calls as values, made in order, also where an allocation fails.
use crate::check::check;
use crate::public_api::common::{Bundle, read, value_in};
use crate::public_api::given::formats;
use fluent_bundle::{Call, Context, FluentBundle, FluentResource, FunctionRef, GetEntry};
use std::alloc::{AllocError, Global};
use std::process::Abort;
use std::test::Fail;
use test_contracts::own::Own;

fn make_first<'r, 's>(
    alloc: Global,
    bundle: &mut Bundle<'r, 's>,
    first: &'r FluentResource<'s>,
    second: &'r FluentResource<'s>,
) -> Result<(), AllocError> {
    bundle.make(Call::AddResource(first))?;
    bundle.make_all(vec![in alloc;
        Call::AddResource(second),
        Call::SetUseIsolating(false),
        Call::AddFunction("F", Own::Nothing),
        Call::SetPlaceableLimit(0),
        Call::AddBuiltins,
    ]?)
}

fn make_last<'r, 's>(
    alloc: Global,
    bundle: &mut Bundle<'r, 's>,
    second: &'r FluentResource<'s>,
) -> Result<(), AllocError> {
    bundle.make_all(vec![in alloc;
        Call::AddResourceOverriding(second),
        Call::SetUseIsolating(true),
        Call::SetTransform(None),
        Call::SetFormatter(None),
    ]?)
}

/// Whether all messages of the second source are there, or none.
fn has_both_or_none(bundle: &Bundle<'_, '_>) -> bool {
    bundle.has_message("b") == bundle.has_message("c")
}

/// Makes the first calls, again where one is refused: those before it stand, and no other.
fn makes_first<'r, 's>(
    rt: &impl Abort,
    alloc: Global,
    bundle: &mut Bundle<'r, 's>,
    first: &'r FluentResource<'s>,
    second: &'r FluentResource<'s>,
) -> Result<(), AllocError> {
    match make_first(alloc, bundle, first, second) {
        Ok(()) => Ok(()),
        Err(AllocError) => {
            check(rt, has_both_or_none(bundle), "both or none");
            make_first(alloc, bundle, first, second)
        }
    }
}

/// What a message is formatted as.
fn gives(
    rt: &impl Abort,
    alloc: Global,
    bundle: &Bundle<'_, '_>,
    id: &str,
    wanted: (&str, &str),
) -> Result<(), Fail> {
    let pattern = value_in(bundle, id).ok_or("no value")?;
    Ok(formats(rt, alloc, bundle, pattern, None, wanted)?)
}

/// Whether the two functions are there.
fn has_functions(bundle: &Bundle<'_, '_>) -> bool {
    let own = bundle.get_entry_function("F");
    let number = bundle.get_entry_function("NUMBER");
    matches!(own, Some(FunctionRef::Own(Own::Nothing)))
        && matches!(number, Some(FunctionRef::Number))
}

/// Whether look-ups find a message and a term, by their kinds, and the limit is as it was: one of 0 isn't taken.
fn has_entries(bundle: &Bundle<'_, '_>) -> bool {
    bundle.get_entry_message("b").is_some()
        && bundle.get_entry_term("t").is_some()
        && bundle.get_entry_term("b").is_none()
        && bundle.has_message("b")
        && bundle.placeable_limit() == 100
}

/// What is in a bundle, and what `a` and `c`, a text and a missing variable, are formatted as.
fn has(
    rt: &impl Abort,
    alloc: Global,
    bundle: &Bundle<'_, '_>,
    texts: (&str, &str),
) -> Result<(), Fail> {
    check(rt, has_functions(bundle), "functions");
    check(rt, has_entries(bundle), "entries");
    gives(rt, alloc, bundle, "a", (texts.0, ""))?;
    let error = "Resolver error: Unknown variable: $y\n";
    gives(rt, alloc, bundle, "c", (texts.1, error))
}

/// That a bundle has one locale, without a language.
fn has_one_locale(bundle: &Bundle<'_, '_>) -> bool {
    bundle.locales.len() == 1 && bundle.locales[0].language.is_none()
}

fn makes_calls<'r, 's>(
    rt: &impl Abort,
    alloc: Global,
    first: &'r FluentResource<'s>,
    second: &'r FluentResource<'s>,
) -> Result<(), Fail> {
    let mut bundle: Bundle<'r, 's> = FluentBundle::new_default(alloc)?;
    check(rt, has_one_locale(&bundle), "one locale");
    makes_first(rt, alloc, &mut bundle, first, second)?;
    has(rt, alloc, &bundle, ("one", "x{$y}"))?;
    make_last(alloc, &mut bundle, second)?;
    has(rt, alloc, &bundle, ("two", "x\u{2068}{$y}\u{2069}"))
}

/// Run with each allocation failing in turn.
#[test]
fn calls_are_made_in_order_on_a_default_bundle(rt: HostRuntime) -> Result<(), Fail> {
    let first = read(rt.alloc(), "a = one\n")?;
    let second = read(rt.alloc(), "a = two\nb = three\nc = x{ $y }\n-t = z\n")?;
    makes_calls(&rt, rt.alloc(), &first, &second)
}
