//! A tree made by hand that goes deeper than a source would: a hundred times a select in a placeable in a call's
//! argument.
use crate::public_api::common::{Bundle, Setting, bundle_of, read};
use crate::public_api::given::gives;
use fluent_bundle::ast::{
    CallArguments, Expression, Identifier, InlineExpression, Pattern, PatternElement, Variant,
    VariantKey,
};
use std::alloc::{AllocError, Global};
use std::process::Abort;
use test_contracts::own::Own;

type Inline<'s> = InlineExpression<'s>;

/// Each level's text is a prefix of it, longer by one than that of the level within.
const MARKS: &str =
    "......................................................................................................";

const LEVELS: usize = 100;

fn marks<'s>(count: usize) -> &'s str {
    match MARKS.split_at_checked(count) {
        Some((prefix, _)) => prefix,
        None => "too many",
    }
}

// ---- parts

fn variant<'s>(
    alloc: Global,
    name: &'s str,
    value: &'s str,
    default: bool,
) -> Result<Variant<'s>, AllocError> {
    let elements = vec![in alloc; PatternElement::TextElement { value }]?;
    Ok(Variant {
        key: VariantKey::Identifier { name },
        value: Pattern { elements },
        default,
    })
}

/// The variants of a level: one mark more than the selector gives, where it gives those of the level, and what stands
/// where it gives anything else.
fn variants_of<'s>(alloc: Global, level: usize) -> Result<Vec<Variant<'s>>, AllocError> {
    let mut variants: Vec<Variant<'s>> = Vec::new(alloc);
    let next = marks(level.saturating_add(1));
    variants.push(variant(alloc, marks(level), next, false)?)?;
    variants.push(variant(alloc, "other", "lost", true)?)?;
    Ok(variants)
}

/// A select in a placeable, of one level.
fn select<'s>(alloc: Global, selector: Inline<'s>, level: usize) -> Result<Inline<'s>, AllocError> {
    let variants: Vec<Variant<'s>> = variants_of(alloc, level)?;
    Ok(InlineExpression::Placeable {
        expression: Box::new(alloc, Expression::Select { selector, variants })?,
    })
}

fn call<'s>(alloc: Global, inside: Inline<'s>) -> Result<Inline<'s>, AllocError> {
    let mut positional = Vec::new(alloc);
    let named = Vec::new(alloc);
    positional.push(inside)?;
    Ok(InlineExpression::FunctionReference {
        id: Identifier { name: "FIRST" },
        arguments: Box::new(alloc, CallArguments { positional, named })?,
    })
}

/// All levels: the first is chosen by one mark.
fn levels<'s>(alloc: Global, inside: Inline<'s>) -> Result<Pattern<'s>, AllocError> {
    let mut tree = inside;
    for level in 0..LEVELS {
        tree = select(alloc, call(alloc, tree)?, level.saturating_add(1))?;
    }
    let expression = Expression::Inline(tree);
    Ok(Pattern {
        elements: vec![in alloc; PatternElement::Placeable { expression }]?,
    })
}

// ---- tests

const NO_Q: &str = "Resolver error: Unknown variable: $q\n";

/// Each level is chosen by the level within, from the innermost on.
fn are_chosen<'s>(
    rt: &impl Abort,
    alloc: Global,
    bundle: &Bundle<'_, 's>,
) -> Result<(), AllocError> {
    let mark = InlineExpression::StringLiteral { value: marks(1) };
    let whole: Pattern<'s> = levels(alloc, mark)?;
    gives(rt, alloc, bundle, &whole, None, (marks(101), ""))?;
    let id = Identifier { name: "q" };
    let missing: Pattern<'s> = levels(alloc, InlineExpression::VariableReference { id })?;
    gives(rt, alloc, bundle, &missing, None, ("lost", NO_Q))
}

#[test]
fn a_hundred_levels_are_resolved(rt: HostRuntime) -> Result<(), AllocError> {
    let resource = read(rt.alloc(), "m = x")?;
    let first = Setting::Function("FIRST", Own::First);
    let bundle = bundle_of(rt.alloc(), &[first], &resource)?;
    are_chosen(&rt, rt.alloc(), &bundle)
}
