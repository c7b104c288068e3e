//! What patterns refer to, in the order of the tree.
use crate::check::{Row, check_rows};
use crate::syntax::reading::{Found, read};
use fluent_syntax::ast::{Entry, Pattern};
use fluent_syntax::{Reference, references};
use std::alloc::{AllocError, Global};

/// A source, and what the value of its first entry refers to.
type Refers = (&'static str, &'static [Reference<'static>]);

const ROWS: &[Refers] = &[
    (
        "p = { F(a, -t(x: 1)) ->\n [k] { b.c }\n *[o] { G() }\n }",
        &[
            Reference::Function("F"),
            Reference::Message("a"),
            Reference::Term("t"),
            Reference::Message("b"),
            Reference::Function("G"),
        ],
    ),
    // Texts, literals and variables refer to nothing.
    ("p = x", &[]),
    ("p = x{ $v }{ \"a\" }{ 1 }{ $v ->\n *[o] x\n }", &[]),
    // As often as it stands there, and an attribute by its entry.
    (
        "p = { a }{ -t }{ a.b }x{ a }",
        &[
            Reference::Message("a"),
            Reference::Term("t"),
            Reference::Message("a"),
            Reference::Message("a"),
        ],
    ),
    (
        "p = { -t.b ->\n *[o] { p }\n }",
        &[Reference::Term("t"), Reference::Message("p")],
    ),
    // Placeables, calls and selects within others.
    (
        "p = {{ a }}{ F({{ b }}, G(c), -t({ d }), n: \"e\") }{ -u() }",
        &[
            Reference::Message("a"),
            Reference::Function("F"),
            Reference::Message("b"),
            Reference::Function("G"),
            Reference::Message("c"),
            Reference::Term("t"),
            Reference::Message("d"),
            Reference::Term("u"),
        ],
    ),
    (
        "p = { $v ->\n [k] { F() ->\n *[o] { a }\n }{ b }\n *[o] { c }\n }{ d }",
        &[
            Reference::Function("F"),
            Reference::Message("a"),
            Reference::Message("b"),
            Reference::Message("c"),
            Reference::Message("d"),
        ],
    ),
    // A term's value; what stands in an attribute is no part of the value.
    ("-p = { -q }\n .r = { s }", &[Reference::Term("q")]),
];

/// The value of the first entry.
fn value<'x, 's>(entries: &'x [Entry<'s>]) -> Option<&'x Pattern<'s>> {
    match entries.first()? {
        Entry::Message(message) => message.value.as_ref(),
        Entry::Term(term) => Some(&term.value),
        Entry::Junk { .. } => None,
    }
}

fn are_listed(list: &Result<Vec<Reference<'_>>, AllocError>, these: &[Reference]) -> bool {
    match list {
        Ok(list) => list.as_slice() == these,
        Err(AllocError) => false,
    }
}

/// What a pattern refers to, asked again where an allocation fails.
fn listed<'s>(alloc: Global, pattern: &Pattern<'s>) -> Result<Vec<Reference<'s>>, AllocError> {
    match references(alloc, pattern) {
        Err(AllocError) => references(alloc, pattern),
        list => list,
    }
}

fn refers_to(alloc: Global, found: &Found, these: &[Reference]) -> bool {
    match found {
        Ok((resource, None)) => match value(resource.body.as_slice()) {
            Some(pattern) => are_listed(&listed(alloc, pattern), these),
            None => false,
        },
        _ => false,
    }
}

/// A source as it is read, again where an allocation fails.
fn read_again(alloc: Global, source: &'static str) -> Found<'static> {
    match read(alloc, source) {
        Err(AllocError) => read(alloc, source),
        found => found,
    }
}

impl Row for Refers {
    fn holds(&self, alloc: Global) -> bool {
        refers_to(alloc, &read_again(alloc, self.0), self.1)
    }
}

/// Run with each allocation failing in turn.
#[test]
fn patterns_refer_in_order(rt: HostRuntime) {
    check_rows(&rt, rt.alloc(), ROWS);
}
