//! A row written by hand, from the sources and the objects of the application to the text.
use crate::check::check;
use crate::public_api::common::{arguments, read, value_of};
use crate::public_api::given::are;
use fluent_bundle::{Counting, FluentError, WriteFault, ast};
use fluent_end_to_end_laws::{
    Asked, format_after, format_by_id_after, write_after, write_by_id_after,
};
use fluent_intl::EnglishPlurals;
use std::alloc::{AllocError, Global};
use std::borrow::CowStr;
use std::test::Fail;
use test_contracts::own::{Bracketed, Own, Upper};

/// A call of each kind.
fn calls<'s>(alloc: Global) -> Result<Vec<Asked<'s, Own, Bracketed, Upper>>, AllocError> {
    Ok(vec![in alloc;
        Asked::AddResource("junk\nitems = few items\nrest = none\n"),
        Asked::AddResourceOverriding("items = { $n } items\njunk\n"),
        Asked::AddFunction("F", Own::Nothing),
        Asked::AddBuiltins,
        Asked::SetUseIsolating(false),
        Asked::SetTransform(Some(Upper)),
        Asked::SetFormatter(Some(Bracketed)),
        Asked::SetPlaceableLimit(1),
    ]?)
}

/// What a pattern is written as after the calls, where `n` is 3.
fn written<'s>(
    alloc: Global,
    pattern: &ast::Pattern<'s>,
    errors: &mut Vec<FluentError>,
) -> Result<Vec<u8>, WriteFault> {
    let args = arguments(alloc, &[("n", "3")])?;
    let mut w = Counting::new(Vec::new(alloc));
    let calls = calls(alloc)?;
    write_after(
        alloc,
        EnglishPlurals,
        calls,
        Some(&args),
        pattern,
        &mut w,
        errors,
    )?;
    Ok(w.into_inner())
}

/// What it is formatted as.
fn formatted<'s>(
    alloc: Global,
    pattern: &ast::Pattern<'s>,
    errors: &mut Vec<FluentError>,
) -> Result<CowStr<'s>, AllocError> {
    let args = arguments(alloc, &[("n", "3")])?;
    format_after(
        alloc,
        EnglishPlurals,
        calls(alloc)?,
        Some(&args),
        pattern,
        errors,
    )
}

/// What the value of a message is written as after the calls, where `n` is 3, if the message is there.
fn written_by_id(
    alloc: Global,
    id: &str,
    errors: &mut Vec<FluentError>,
) -> Result<Option<Vec<u8>>, WriteFault> {
    let args = arguments(alloc, &[("n", "3")])?;
    let mut w = Counting::new(Vec::new(alloc));
    let calls = calls(alloc)?;
    let is_there = write_by_id_after(
        alloc,
        EnglishPlurals,
        calls,
        Some(&args),
        id,
        None,
        &mut w,
        errors,
    )?;
    Ok(is_there.then_some(w.into_inner()))
}

/// What it is formatted as.
fn formatted_by_id(
    alloc: Global,
    id: &str,
    errors: &mut Vec<FluentError>,
) -> Result<Option<CowStr<'static>>, AllocError> {
    let args = arguments(alloc, &[("n", "3")])?;
    format_by_id_after(
        alloc,
        EnglishPlurals,
        calls(alloc)?,
        Some(&args),
        id,
        None,
        errors,
    )
}

const STRUCK: &str = "Resolver error: Too many placeables\n";

/// The text is changed, the whole is between brackets, and the second placeable is one too many.
#[test]
fn a_bundle_of_two_sources(rt: HostRuntime) -> Result<(), Fail> {
    let alloc = rt.alloc();
    let resource = read(alloc, "m = You have { $n } items{ $n }.\n")?;
    let pattern = value_of(&resource)?;
    let mut errors = Vec::new(alloc);
    let bytes = written(alloc, pattern, &mut errors)?;
    check(
        &rt,
        bytes.as_slice() == "YOU HAVE 3 ITEMS".as_bytes(),
        "what is written",
    );
    are(&rt, alloc, errors.as_slice(), STRUCK)?;
    let mut errors = Vec::new(alloc);
    let text = formatted(alloc, pattern, &mut errors)?;
    check(&rt, text.as_str() == "[YOU HAVE 3 ITEMS]", text.as_str());
    are(&rt, alloc, errors.as_slice(), STRUCK)?;
    Ok(())
}

/// The later source overrides the message, whose one placeable is within the limit; no source has the other.
#[test]
fn what_an_id_names_after_the_calls(rt: HostRuntime) -> Result<(), Fail> {
    let alloc = rt.alloc();
    let mut errors = Vec::new(alloc);
    let bytes = written_by_id(alloc, "items", &mut errors)?;
    let is_written = matches!(&bytes, Some(bytes) if bytes.as_slice() == "3 ITEMS".as_bytes());
    check(&rt, is_written, "what is written");
    let text = formatted_by_id(alloc, "items", &mut errors)?;
    let is_formatted = matches!(&text, Some(text) if text.as_str() == "[3 ITEMS]");
    check(&rt, is_formatted, "what is formatted");
    let absent = written_by_id(alloc, "junk", &mut errors)?;
    check(&rt, absent.is_none(), "what isn't there");
    are(&rt, alloc, errors.as_slice(), "")?;
    Ok(())
}
