//! The texts of errors, and copies of them.
use fluent_bundle_entries::{EntryKind, FluentError, ReferenceKind, ResolverError};
use fluent_syntax::ParserError;
use std::alloc::{AllocError, Global};
use std::test::Fail;

/// What is reported: references by their kinds, with the name of an attribute or without, other errors, an
/// unreadable entry, and an entry that was not added.
#[derive(Clone, Copy, Drop)]
enum Of {
    Function,
    Message,
    MessageAttribute,
    Term,
    TermAttribute,
    Variable,
    NoValue,
    MissingDefault,
    Cyclic,
    TooManyPlaceables,
    Unreadable,
    Overriding(EntryKind),
}

/// An error and its id, its text alone, and its text as a report.
type Row = (Of, &'static str, &'static str, &'static str);

const ROWS: &[Row] = &[
    (
        Of::Function,
        "F",
        "Unknown function: F()",
        "Resolver error: Unknown function: F()",
    ),
    (
        Of::Variable,
        "x",
        "Unknown variable: $x",
        "Resolver error: Unknown variable: $x",
    ),
    (
        Of::Message,
        "id",
        "Unknown message: id",
        "Resolver error: Unknown message: id",
    ),
    (
        Of::MessageAttribute,
        "id",
        "Unknown attribute: id.attr",
        "Resolver error: Unknown attribute: id.attr",
    ),
    (
        Of::Term,
        "id",
        "Unknown term: -id",
        "Resolver error: Unknown term: -id",
    ),
    (
        Of::TermAttribute,
        "id",
        "Unknown attribute: -id.attr",
        "Resolver error: Unknown attribute: -id.attr",
    ),
    (
        Of::NoValue,
        "id",
        "No value: id",
        "Resolver error: No value: id",
    ),
    (
        Of::MissingDefault,
        "",
        "No default",
        "Resolver error: No default",
    ),
    (
        Of::Cyclic,
        "",
        "Cyclical dependency detected",
        "Resolver error: Cyclical dependency detected",
    ),
    (
        Of::TooManyPlaceables,
        "",
        "Too many placeables",
        "Resolver error: Too many placeables",
    ),
    (
        Of::Unreadable,
        "",
        "unreadable entry at bytes 11..109",
        "Parser error: unreadable entry at bytes 11..109",
    ),
    (
        Of::Overriding(EntryKind::Message),
        "id",
        "message",
        "Attempt to override an existing message: \"id\".",
    ),
    (
        Of::Overriding(EntryKind::Term),
        "id",
        "term",
        "Attempt to override an existing term: \"id\".",
    ),
    (
        Of::Overriding(EntryKind::Function),
        "id",
        "function",
        "Attempt to override an existing function: \"id\".",
    ),
];

/// The attribute's name, where a reference has one.
fn attribute_of(alloc: Global, of: Of) -> Result<Option<String>, AllocError> {
    match of {
        Of::MessageAttribute | Of::TermAttribute => Ok(Some(String::from_str(alloc, "attr")?)),
        _ => Ok(None),
    }
}

fn resolver_error(of: Of, id: String, attribute: Option<String>) -> ResolverError {
    match of {
        Of::Function => ResolverError::Reference(ReferenceKind::Function { id }),
        Of::Variable => ResolverError::Reference(ReferenceKind::Variable { id }),
        Of::Message | Of::MessageAttribute => {
            ResolverError::Reference(ReferenceKind::Message { id, attribute })
        }
        Of::Term | Of::TermAttribute => {
            ResolverError::Reference(ReferenceKind::Term { id, attribute })
        }
        Of::NoValue => ResolverError::NoValue(id),
        Of::MissingDefault => ResolverError::MissingDefault,
        Of::Cyclic => ResolverError::Cyclic,
        _ => ResolverError::TooManyPlaceables,
    }
}

/// The error of a row, as a report.
fn report(alloc: Global, of: Of, id: &str) -> Result<FluentError, AllocError> {
    let attribute = attribute_of(alloc, of)?;
    let id = String::from_str(alloc, id)?;
    match of {
        Of::Overriding(kind) => Ok(FluentError::Overriding { kind, id }),
        Of::Unreadable => Ok(FluentError::from(ParserError {
            start: 11,
            end: 109,
        })),
        _ => Ok(FluentError::from(resolver_error(of, id, attribute))),
    }
}

/// The text of an error alone; of an entry that was not added, that of its kind.
fn own_text(alloc: Global, report: &FluentError) -> Result<String, AllocError> {
    match report {
        FluentError::Overriding { kind, .. } => kind.to_string(alloc),
        FluentError::ParserError(error) => error.to_string(alloc),
        FluentError::ResolverError(error) => error.to_string(alloc),
    }
}

/// That a copy of a report is equal.
fn is_copied(alloc: Global, report: &FluentError) -> Result<bool, AllocError> {
    let copy = report.try_clone(alloc)?;
    Ok(copy == *report)
}

/// That a text is as expected.
fn reads(found: Result<String, AllocError>, expected: &str) -> Result<bool, AllocError> {
    Ok(found?.as_str() == expected)
}

/// The text of an error, alone and as a report; a copy of it is equal.
fn is_reported(alloc: Global, row: &Row) -> Result<bool, AllocError> {
    let report = report(alloc, row.0, row.1)?;
    Ok(
        reads(own_text(alloc, &report), row.2)?
            && reads(report.to_string(alloc), row.3)?
            && is_copied(alloc, &report)?,
    )
}

/// Run with each allocation failing in turn.
#[test]
fn errors_have_their_texts(rt: HostRuntime) -> Result<(), Fail> {
    for row in ROWS {
        assert!(rt; is_reported(rt.alloc(), row)?, "{}", row.3);
    }
    Ok(())
}
