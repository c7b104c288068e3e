//! A select without a default, which no source is read as.
use crate::check::{check, check_same};
use crate::lint::common::lines;
use fluent_ast::ast::{
    Expression, Identifier, InlineExpression, Message, Pattern, PatternElement, Variant, VariantKey,
};
use fluent_lint::{Finding, Place, lint_places};
use std::alloc::{AllocError, Global};
use std::test::Fail;
use test_contracts::alone::Alone;

/// The select `{ $n -> [one] }` with one variant, which is its default or isn't.
fn select<'s>(alloc: Global, default: bool) -> Result<Expression<'s>, AllocError> {
    let id = Identifier { name: "n" };
    let key = VariantKey::Identifier { name: "one" };
    let value = Pattern {
        elements: Vec::new(alloc),
    };
    let mut variants = Vec::new(alloc);
    variants.push(Variant {
        key,
        value,
        default,
    })?;
    Ok(Expression::Select {
        selector: InlineExpression::VariableReference { id },
        variants,
    })
}

/// The message `a` of that select.
fn message<'s>(alloc: Global, default: bool) -> Result<Alone<'s>, AllocError> {
    let expression = select(alloc, default)?;
    let mut elements = Vec::new(alloc);
    elements.push(PatternElement::Placeable { expression })?;
    Ok(Alone {
        message: Message {
            id: Identifier { name: "a" },
            value: Some(Pattern { elements }),
            attributes: Vec::new(alloc),
        },
    })
}

/// What is found in it, where more than two placeables are many.
fn found<'s>(alloc: Global, default: bool) -> Result<Vec<Finding<'s>>, AllocError> {
    let message = message(alloc, default)?;
    let places = [Place::Message(Identifier { name: "a" }, None)];
    lint_places(alloc, &message, &places, 2)
}

#[test]
fn a_select_without_a_default_is_told(rt: HostRuntime) -> Result<(), Fail> {
    let findings = found(rt.alloc(), false)?;
    let text = lines(rt.alloc(), &findings)?;
    check_same(&rt, text.as_str(), "a select has no default (in 'a')\n");
    Ok(())
}

#[test]
fn a_select_with_a_default_is_clean(rt: HostRuntime) -> Result<(), Fail> {
    let findings = found(rt.alloc(), true)?;
    check(&rt, findings.is_empty(), "clean");
    Ok(())
}
