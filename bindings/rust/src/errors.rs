//! What is reported of sources, bundles and texts.

use crate::resolver::ResolverError;
use std::error::Error;
use std::fmt;
use std::ops::Range;

/// What an id of a bundle names.
#[derive(Clone, Debug, Eq, PartialEq)]
pub enum EntryKind {
    /// A message.
    Message,
    /// A term.
    Term,
    /// A function.
    Function,
}

impl fmt::Display for EntryKind {
    fn fmt(&self, f: &mut fmt::Formatter<'_>) -> fmt::Result {
        f.write_str(match self {
            Self::Message => "message",
            Self::Term => "term",
            Self::Function => "function",
        })
    }
}

/// A part of a source that can't be read.
///
/// Unlike `fluent-syntax`'s, it has no kind: it is the range of one Junk, from the line where it begins up to the next line
/// that may begin an entry, and each Junk is reported once.
#[derive(Clone, Debug, Eq, Hash, PartialEq)]
pub struct ParserError {
    /// The bytes of the source that it takes.
    pub pos: Range<usize>,
}

impl fmt::Display for ParserError {
    fn fmt(&self, f: &mut fmt::Formatter<'_>) -> fmt::Result {
        write!(
            f,
            "unreadable entry at bytes {}..{}",
            self.pos.start, self.pos.end
        )
    }
}

impl Error for ParserError {}

/// What can be reported.
#[derive(Clone, Debug, Eq, PartialEq)]
pub enum FluentError {
    /// An entry was not added, since its id was there.
    Overriding {
        /// What the new entry is.
        kind: EntryKind,
        /// Its id, a term's without its dash.
        id: String,
    },
    /// A part of a source can't be read.
    ParserError(ParserError),
    /// Something in a pattern can't be resolved.
    ResolverError(ResolverError),
}

impl fmt::Display for FluentError {
    fn fmt(&self, f: &mut fmt::Formatter<'_>) -> fmt::Result {
        match self {
            Self::Overriding { kind, id } => {
                write!(f, "Attempt to override an existing {kind}: \"{id}\".")
            }
            Self::ParserError(error) => write!(f, "Parser error: {error}"),
            Self::ResolverError(error) => write!(f, "Resolver error: {error}"),
        }
    }
}

impl Error for FluentError {}

impl From<ResolverError> for FluentError {
    fn from(error: ResolverError) -> Self {
        Self::ResolverError(error)
    }
}

impl From<ParserError> for FluentError {
    fn from(error: ParserError) -> Self {
        Self::ParserError(error)
    }
}
