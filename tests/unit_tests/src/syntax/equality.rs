//! `==` of the types of the tree, on pairs of sources: equal contents, wherever their texts lie.
use crate::check::{Row, check_rows};
use crate::syntax::reading::{Found, read};
use std::alloc::{AllocError, Global};

/// Two sources, and whether their trees are equal.
type Pair = (&'static str, &'static str, bool);

const PAIRS: &[Pair] = &[
    // Every kind, twice the same, and with other blanks.
    (
        "a = b{ F(\"c\", 1.5, d.e, -f(g: 2), $h, { 3 }) }\n .i = j\n-k = { $l ->\n [1] m\n *[n] o\n }\n?",
        "a = b{ F(\"c\", 1.5, d.e, -f(g: 2), $h, { 3 }) }\n .i = j\n-k = { $l ->\n [1] m\n *[n] o\n }\n?",
        true,
    ),
    (
        "a=b{F(\"c\",1.5,d.e,-f(g:2),$h,{3})}\n.i=j\n\n# x\n-k={$l ->\n[1]m\n*[ n ]o\n}\n?",
        "a = b{ F(\"c\", 1.5, d.e, -f(g: 2), $h, { 3 }) }\n .i = j\n-k = { $l ->\n [1] m\n *[n] o\n }\n?",
        true,
    ),
    // Entries, elements, literals, calls and selects that differ in one part.
    ("a = b\nc = d", "c = d\na = b", false),
    ("a = b\n .c = d", "a = b\n .c = e", false),
    ("a = b{ $c }", "a = { $c }b", false),
    ("a = { 1 }", "a = { 1.0 }", false),
    ("a = { \"1\" }", "a = { 1 }", false),
    ("a = { -b }", "a = { -b() }", false),
    ("a = { B(c: 1, d: 2) }", "a = { B(d: 2, c: 1) }", false),
    (
        "a = { $b ->\n *[c] d\n [e] f\n }",
        "a = { $b ->\n [c] d\n *[e] f\n }",
        false,
    ),
];

fn are_alike<'s>(one: &Found<'s>, other: &Found<'s>, equal: bool) -> bool {
    match (one, other) {
        (Ok((one, _)), Ok((other, _))) => (one == other) == equal,
        _ => false,
    }
}

/// Whether two sources have equal trees, or other ones.
fn alike<'s>(alloc: Global, one: &'s str, other: &'s str, equal: bool) -> bool {
    let one = read(alloc, one);
    let other = read(alloc, other);
    are_alike(&one, &other, equal)
}

/// The same where the second source is a copy, which lies elsewhere.
fn alike_copied(alloc: Global, one: &str, other: &Result<String, AllocError>, equal: bool) -> bool {
    match other {
        Ok(other) => alike(alloc, one, other.as_str(), equal),
        Err(AllocError) => false,
    }
}

impl Row for Pair {
    fn holds(&self, alloc: Global) -> bool {
        alike_copied(alloc, self.0, &String::from_str(alloc, self.1), self.2)
    }
}

#[test]
fn of_sources(rt: HostRuntime) {
    check_rows(&rt, rt.alloc(), PAIRS);
}
