//! The errors of references.
use crate::check::check;
use crate::public_api::common::{read, value_of};
use fluent_bundle::ResolverError;
use fluent_bundle::ast::{Expression, InlineExpression, Pattern, PatternElement};
use std::alloc::{AllocError, Global};
use std::test::Fail;

/// The expression of a pattern of one placeable.
fn placed<'x, 's>(pattern: &'x Pattern<'s>) -> Option<&'x InlineExpression<'s>> {
    match pattern.elements.first()? {
        PatternElement::Placeable {
            expression: Expression::Inline(expression),
        } => Some(expression),
        _ => None,
    }
}

/// The text of the error of a reference; nothing where the expression is none.
fn lost_text(alloc: Global, expression: &InlineExpression<'_>) -> Result<String, AllocError> {
    match ResolverError::of(alloc, expression)? {
        Some(error) => error.to_string(alloc),
        None => Ok(String::new(alloc)),
    }
}

/// The error of the reference that a message of one placeable holds; no text where it holds none.
fn is_lost(alloc: Global, source: &str, expected: &str) -> Result<bool, Fail> {
    let resource = read(alloc, source)?;
    let expression = placed(value_of(&resource)?).ok_or("no expression")?;
    Ok(lost_text(alloc, expression)?.as_str() == expected)
}

const LOST: &[(&str, &str)] = &[
    ("a = { b }", "Unknown message: b"),
    ("a = { b.c }", "Unknown attribute: b.c"),
    ("a = { -b }", "Unknown term: -b"),
    ("a = { F(1) }", "Unknown function: F()"),
    ("a = { $b }", "Unknown variable: $b"),
    ("a = { \"b\" }", ""),
    ("a = { 1 }", ""),
    ("a = { { $b } }", ""),
];

/// Run with each allocation failing in turn.
#[test]
fn references_have_their_errors(rt: HostRuntime) -> Result<(), Fail> {
    for (source, expected) in LOST {
        check(&rt, is_lost(rt.alloc(), *source, *expected)?, *source);
    }
    Ok(())
}
