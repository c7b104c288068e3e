//! A short form of what the reader gives.
use crate::check::is_same;
use crate::syntax::reading::{Found, read};
use fluent_syntax::ParserError;
use fluent_syntax::ast::{
    Attribute, CallArguments, Entry, Expression, Identifier, InlineExpression, NamedArgument,
    Pattern, PatternElement, Resource, Variant, VariantKey,
};
use std::alloc::{AllocError, Global};

/// A text that grows, and whether an allocation for a part of it failed.
#[derive(Drop)]
struct Text {
    text: String,
    refused: bool,
}

fn put(out: &mut Text, text: &str) {
    if out.text.push_str(text).is_err() {
        out.refused = true;
    }
}

/// Puts texts, one after the other.
fn add(out: &mut Text, texts: &[&str]) {
    for text in texts {
        put(out, *text);
    }
}

fn ranges(out: &mut Text, errors: &[ParserError]) {
    for e in errors {
        if write!(out.text, " {}..{}", e.start, e.end).is_err() {
            out.refused = true;
        }
    }
}

/// What a source is read as, in a short form. Its entries in order: `id=[..]` a message, `-id=[..]` a term, each with ` .id=[..]` for an
/// attribute, `!(..)` Junk. In a pattern `(..)` is a text and `{..}` a placeable; a select is `selector->` and its
/// variants, `key[..]`, with `*` before the default and `#` before a number. Each argument ends in a comma.
/// At the end stands the byte range of each Junk.
fn shown(alloc: Global, resource: &Resource, errors: &Option<Vec<ParserError>>) -> Text {
    let mut out = Text {
        text: String::new(alloc),
        refused: false,
    };
    entries(&mut out, resource.body.as_slice());
    if let Some(errors) = errors {
        ranges(&mut out, errors.as_slice());
    }
    out
}

fn is_whole(found: &Text, tree: &str) -> bool {
    !found.refused && is_same(found.text.as_str(), tree)
}

fn is_shown(alloc: Global, found: &Found, tree: &str) -> bool {
    match found {
        Ok((resource, errors)) => is_whole(&shown(alloc, resource, errors), tree),
        Err(AllocError) => false,
    }
}

/// Whether a source is read as a tree, in the short form.
pub fn is_tree(alloc: Global, source: &str, tree: &str) -> bool {
    is_shown(alloc, &read(alloc, source), tree)
}

fn entries(out: &mut Text, body: &[Entry]) {
    let mut before = "";
    for e in body {
        put(out, before);
        entry(out, e);
        before = " ";
    }
}

fn entry(out: &mut Text, entry: &Entry) {
    match entry {
        Entry::Message(m) => {
            add(out, &[m.id.name, "="]);
            if let Some(value) = &m.value {
                pattern(out, value);
            }
            attributes(out, m.attributes.as_slice())
        }
        Entry::Term(t) => {
            add(out, &["-", t.id.name, "="]);
            pattern(out, &t.value);
            attributes(out, t.attributes.as_slice())
        }
        Entry::Junk { content } => add(out, &["!(", *content, ")"]),
    }
}

fn attributes(out: &mut Text, attributes: &[Attribute]) {
    for a in attributes {
        add(out, &[" .", a.id.name, "="]);
        pattern(out, &a.value);
    }
}

#[cycle(shown)]
fn pattern(out: &mut Text, pattern: &Pattern) {
    put(out, "[");
    for e in pattern.elements.iter() {
        element(out, e);
    }
    put(out, "]");
}

#[cycle(shown)]
fn element(out: &mut Text, element: &PatternElement) {
    match element {
        PatternElement::TextElement { value } => add(out, &["(", *value, ")"]),
        PatternElement::Placeable { expression: x } => placeable(out, x),
    }
}

#[cycle(shown)]
fn placeable(out: &mut Text, inside: &Expression) {
    put(out, "{");
    expression(out, inside);
    put(out, "}");
}

#[cycle(shown)]
fn expression(out: &mut Text, expression: &Expression) {
    match expression {
        Expression::Inline(x) => inline(out, x),
        Expression::Select { selector, variants } => {
            inline(out, selector);
            put(out, "->");
            for v in variants.iter() {
                variant(out, v);
            }
        }
    }
}

#[cycle(shown)]
fn variant(out: &mut Text, variant: &Variant) {
    if variant.default {
        put(out, "*");
    }
    key(out, &variant.key);
    pattern(out, &variant.value)
}

fn key(out: &mut Text, key: &VariantKey) {
    match key {
        VariantKey::Identifier { name } => put(out, *name),
        VariantKey::NumberLiteral { value } => add(out, &["#", *value]),
    }
}

#[cycle(shown)]
fn inline(out: &mut Text, inline: &InlineExpression) {
    match inline {
        InlineExpression::StringLiteral { value } => add(out, &["\"", *value, "\""]),
        InlineExpression::NumberLiteral { value } => put(out, *value),
        InlineExpression::FunctionReference { id, arguments: a } => {
            put(out, id.name);
            arguments(out, a)
        }
        InlineExpression::MessageReference { id, attribute: a } => name(out, "", id, a),
        InlineExpression::TermReference {
            id,
            attribute: a,
            arguments: b,
        } => {
            name(out, "-", id, a);
            match b {
                Some(b) => arguments(out, b),
                None => {}
            }
        }
        InlineExpression::VariableReference { id } => add(out, &["$", id.name]),
        InlineExpression::Placeable { expression: x } => placeable(out, x),
    }
}

/// A name after its sign, with the attribute.
fn name(out: &mut Text, sign: &str, id: &Identifier, attribute: &Option<Identifier>) {
    match attribute {
        Some(a) => add(out, &[sign, id.name, ".", a.name]),
        None => add(out, &[sign, id.name]),
    }
}

#[cycle(shown)]
fn arguments(out: &mut Text, arguments: &CallArguments) {
    put(out, "(");
    for x in arguments.positional.iter() {
        inline(out, x);
        put(out, ",");
    }
    for n in arguments.named.iter() {
        named(out, n);
    }
    put(out, ")");
}

#[cycle(shown)]
fn named(out: &mut Text, argument: &NamedArgument) {
    add(out, &[argument.name.name, ":"]);
    inline(out, &argument.value);
    put(out, ",");
}
