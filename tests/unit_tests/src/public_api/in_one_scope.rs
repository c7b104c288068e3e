//! Calls of one scope: what they write, report and open; and where an allocation fails, that environment and path are as
//! before, so that the same call comes to the whole when it is made again.
use crate::check::check;
use crate::public_api::common::{
    Args, Bundle, Scoped, Setting, arguments, bundle_of, lines, read, value_in,
};
use crate::public_api::given::are;
use fluent_bundle::ast::{CallArguments, Expression, InlineExpression, Pattern, PatternElement};
use fluent_bundle::{
    Counting, FluentArgs, FluentError, FluentValue, NoCustom, ReferenceKind, ResolverError, Scope,
    WriteFault,
};
use std::alloc::{AllocError, Global};
use std::process::Abort;
use std::test::Fail;

/// References to terms with arguments of their own, to messages, and cycles.
const SOURCE: &str = "-t = t{ $n }{ -u(n: 2) }{ $n }
-u = u{ $n }
m = y{ m }{ $q }
a = x{ -t(n: 1) }{ m }{ a }{ $n }{ F($q) }
c = { F($q, -t(n: 1), m, $n, x: 3) }
";

// ---- calls

/// A call of a scope, for the message `a` and the reference in `c`.
#[derive(Clone, Copy)]
enum Asked {
    Track,
    MaybeTrack,
    RefError,
    Arguments,
    AddError,
}

/// The parts that the calls are made for.
#[derive(Clone, Copy)]
struct Parts<'p, 's> {
    pattern: &'p Pattern<'s>,
    expression: &'p Expression<'s>,
    inline: &'p InlineExpression<'s>,
    arguments: &'p CallArguments<'s>,
}

fn parts_of<'p, 's>(bundle: &'p Bundle<'_, 's>) -> Option<Parts<'p, 's>> {
    match value_in(bundle, "c")?.elements.first() {
        Some(PatternElement::Placeable { expression }) => match expression {
            Expression::Inline(inline) => match inline {
                InlineExpression::FunctionReference { arguments, .. } => Some(Parts {
                    pattern: value_in(bundle, "a")?,
                    expression,
                    inline,
                    arguments,
                }),
                _ => None,
            },
            _ => None,
        },
        _ => None,
    }
}

/// Whether a value is the one that a text is.
fn is_read(value: Option<&FluentValue<'_, NoCustom>>, text: &'static str) -> bool {
    match value {
        Some(value) => value.same(&FluentValue::try_number(text)),
        None => false,
    }
}

/// Whether the values of the arguments are right.
fn are_right(positional: &[FluentValue<'_, NoCustom>], named: &FluentArgs<'_, NoCustom>) -> bool {
    positional.len() == 4
        && matches!(positional.first(), Some(FluentValue::Error))
        && is_read(positional.get(1), TERM)
        && is_read(positional.get(2), MESSAGE)
        && is_read(positional.get(3), "9")
        && is_read(named.get("x"), "3")
}

/// Asks for the values of the arguments, which are to be right.
fn get<'p, 's>(
    scope: &mut Scoped<'_, 'p, '_, 's>,
    parts: Parts<'p, 's>,
) -> Result<bool, AllocError> {
    let (positional, named) = scope.get_arguments(Some(parts.arguments))?;
    Ok(are_right(positional.as_slice(), &named))
}

/// The answer of a call that writes nothing.
fn unwritten(answer: Result<bool, AllocError>) -> Result<(), WriteFault> {
    match answer {
        Ok(true) => Ok(()),
        Ok(false) => Err(WriteFault::Zero),
        Err(AllocError) => Err(WriteFault::Memory),
    }
}

/// Adds an error that holds a text.
fn report(alloc: Global, scope: &mut Scoped<'_, '_, '_, '_>) -> Result<bool, AllocError> {
    let id = String::from_str(alloc, "z")?;
    scope.add_error(ResolverError::Reference(ReferenceKind::Variable { id }))?;
    Ok(true)
}

fn ask<'p, 's>(
    alloc: Global,
    scope: &mut Scoped<'_, 'p, '_, 's>,
    w: &mut Counting<Vec<u8>>,
    asked: Asked,
    parts: Parts<'p, 's>,
) -> Result<(), WriteFault> {
    match asked {
        Asked::Track => scope.track(w, parts.pattern, parts.inline),
        Asked::MaybeTrack => scope.maybe_track(w, parts.pattern, parts.expression),
        Asked::RefError => scope.write_ref_error(w, parts.inline),
        Asked::Arguments => unwritten(get(scope, parts)),
        Asked::AddError => unwritten(report(alloc, scope)),
    }
}

// ---- rows

const TERM: &str = "t\u{2068}1\u{2069}u\u{2068}2\u{2069}\u{2068}1\u{2069}";

const MESSAGE: &str = "y{m}\u{2068}{$q}\u{2069}";

const A: &str =
    "xt\u{2068}1\u{2069}u\u{2068}2\u{2069}\u{2068}1\u{2069}y{m}\u{2068}{$q}\u{2069}{a}\u{2068}9\u{2069}\u{2068}{F()}\u{2069}";

const A_LINES: &str = "Resolver error: Cyclical dependency detected
Resolver error: Unknown variable: $q
Resolver error: Cyclical dependency detected
Resolver error: Unknown variable: $q
Resolver error: Unknown function: F()
";

const C_LINES: &str = "Resolver error: Unknown variable: $q
Resolver error: Cyclical dependency detected
Resolver error: Unknown variable: $q
Resolver error: Unknown function: F()
";

const ARGUMENTS_LINES: &str = "Resolver error: Unknown variable: $q
Resolver error: Cyclical dependency detected
Resolver error: Unknown variable: $q
";

/// A call, its text, the lines of its errors, and how many placeables it opens.
type Row = (Asked, &'static str, &'static str, u64);

const ROWS: &[Row] = &[
    (Asked::Track, A, A_LINES, 11),
    (Asked::MaybeTrack, "{F()}", C_LINES, 6),
    (
        Asked::RefError,
        "{F()}",
        "Resolver error: Unknown function: F()\n",
        0,
    ),
    (Asked::Arguments, "", ARGUMENTS_LINES, 6),
    (
        Asked::AddError,
        "",
        "Resolver error: Unknown variable: $z\n",
        0,
    ),
];

/// Whether a call came to its end, where it is to fail for want of memory else.
fn is_whole(rt: &impl Abort, answer: Result<(), WriteFault>, text: &str) -> bool {
    match answer {
        Ok(()) => true,
        Err(fault) => {
            check(rt, matches!(fault, WriteFault::Memory), text);
            false
        }
    }
}

/// That this was written, or a beginning of it where the call wasn't whole.
fn is_taken(rt: &impl Abort, written: &[u8], text: &str, is_whole: bool) {
    check(rt, text.as_bytes().starts_with(written), text);
    check(rt, !is_whole || written.len() == text.len(), text);
}

/// Makes a call with a writer that needs no more memory; `false` where it is refused.
fn asks<'p, 's>(
    rt: &impl Abort,
    alloc: Global,
    scope: &mut Scoped<'_, 'p, '_, 's>,
    row: &Row,
    parts: Parts<'p, 's>,
) -> Result<bool, AllocError> {
    let mut w = Counting::new(Vec::with_capacity(alloc, 200)?);
    let is_whole = is_whole(rt, ask(alloc, scope, &mut w, row.0, parts), row.1);
    is_taken(rt, w.into_inner().as_slice(), row.1, is_whole);
    Ok(is_whole)
}

/// What stands in the list of a scope, after so many.
fn listed<'x>(scope: &'x Scoped<'_, '_, '_, '_>, count: usize) -> &'x [FluentError] {
    match scope.errors() {
        Some(errors) => errors.get(count..).unwrap_or(&[]),
        None => &[],
    }
}

/// Whether a scope within its limit opened so many more than before.
fn has_opened(scope: &Scoped<'_, '_, '_, '_>, before: u64, more: u64) -> bool {
    let is_more = scope.counts().opened.saturating_sub(before) == more;
    is_more && !scope.dirty()
}

/// Makes a call, and once more in the same scope where it is refused, which then comes to the whole.
fn asks_twice<'p, 's>(
    rt: &impl Abort,
    alloc: Global,
    scope: &mut Scoped<'_, 'p, '_, 's>,
    row: &Row,
    parts: Parts<'p, 's>,
) -> Result<(), AllocError> {
    if asks(rt, alloc, scope, row, parts)? {
        check(rt, has_opened(scope, 0, row.3), row.1);
        return are(rt, alloc, listed(scope, 0), row.2);
    }
    let found = lines(alloc, listed(scope, 0))?;
    check(rt, row.2.starts_with(found.as_str()), row.1);
    let (opened, count) = (scope.counts().opened, listed(scope, 0).len());
    check(rt, opened <= row.3 && !scope.dirty(), row.1);
    check(rt, asks(rt, alloc, scope, row, parts)?, row.1);
    check(rt, has_opened(scope, opened, row.3), row.1);
    are(rt, alloc, listed(scope, count), row.2)
}

/// Makes a call in a new scope.
fn is_as_before<'p, 'r, 's: 'r>(
    rt: &impl Abort,
    alloc: Global,
    bundle: &'p Bundle<'r, 's>,
    args: &'p Args<'static>,
    row: &Row,
    parts: Parts<'p, 's>,
) -> Result<(), AllocError> {
    let mut errors = Vec::new(alloc);
    let mut scope = Scope::new(bundle, bundle.ids(), Some(args), Some(&mut errors));
    asks_twice(rt, alloc, &mut scope, row, parts)
}

fn are_as_before<'p, 'r, 's: 'r>(
    rt: &impl Abort,
    alloc: Global,
    bundle: &'p Bundle<'r, 's>,
    args: &'p Args<'static>,
) -> Result<(), Fail> {
    let parts = parts_of(bundle).ok_or("no parts")?;
    for row in ROWS {
        is_as_before(rt, alloc, bundle, args, row, parts)?;
    }
    Ok(())
}

/// Run with each allocation failing in turn.
#[test]
fn parts_are_resolved_in_a_scope(rt: HostRuntime) -> Result<(), Fail> {
    let resource = read(rt.alloc(), SOURCE)?;
    let bundle = bundle_of(rt.alloc(), &[], &resource)?;
    let args = arguments(rt.alloc(), &[("n", "9")])?;
    are_as_before(&rt, rt.alloc(), &bundle, &args)
}

// ---- the limit

/// A call whose limit is two, which the third placeable reaches.
fn is_limit_reached<'p, 'r, 's: 'r>(
    rt: &impl Abort,
    alloc: Global,
    bundle: &'p Bundle<'r, 's>,
    errors: &mut Vec<FluentError>,
    parts: Parts<'p, 's>,
) -> Result<(), AllocError> {
    let mut w = Counting::new(Vec::with_capacity(alloc, 200)?);
    let mut scope = Scope::new(bundle, bundle.ids(), None, Some(errors));
    let answer = scope.track(&mut w, parts.pattern, parts.inline);
    let is_right = is_whole(rt, answer, "a") && scope.dirty() && scope.counts().opened == 2;
    check(rt, is_right, "a limit_reached limit");
    let text = "xt\u{2068}1\u{2069}{-t}";
    is_taken(rt, w.into_inner().as_slice(), text, true);
    Ok(())
}

#[test]
fn a_scope_reaches_limit_its_limit(rt: HostRuntime) -> Result<(), Fail> {
    let resource = read(rt.alloc(), SOURCE)?;
    let bundle = bundle_of(rt.alloc(), &[Setting::Limit(2)], &resource)?;
    let parts = parts_of(&bundle).ok_or("no parts")?;
    let mut errors = Vec::new(rt.alloc());
    is_limit_reached(&rt, rt.alloc(), &bundle, &mut errors, parts)?;
    let lines = "Resolver error: Too many placeables\n";
    Ok(are(&rt, rt.alloc(), errors.as_slice(), lines)?)
}
