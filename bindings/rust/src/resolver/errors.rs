//! What can't be resolved in a pattern.

use std::error::Error;
use std::fmt;

/// A reference to what isn't there.
#[derive(Clone, Debug, Eq, PartialEq)]
pub enum ReferenceKind {
    /// To a function.
    Function {
        /// Its name.
        id: String,
    },
    /// To a message, or to an attribute of one.
    Message {
        /// The message's id.
        id: String,
        /// The attribute's name.
        attribute: Option<String>,
    },
    /// To a term, or to an attribute of one.
    Term {
        /// The term's id, without its dash.
        id: String,
        /// The attribute's name.
        attribute: Option<String>,
    },
    /// To a variable.
    Variable {
        /// Its name, without its dollar sign.
        id: String,
    },
}

impl fmt::Display for ReferenceKind {
    fn fmt(&self, f: &mut fmt::Formatter<'_>) -> fmt::Result {
        let (what, sign, id, attribute) = match self {
            Self::Function { id } => return write!(f, "Unknown function: {id}()"),
            Self::Variable { id } => return write!(f, "Unknown variable: ${id}"),
            Self::Message { id, attribute } => ("message", "", id, attribute),
            Self::Term { id, attribute } => ("term", "-", id, attribute),
        };
        match attribute {
            Some(name) => write!(f, "Unknown attribute: {sign}{id}.{name}"),
            None => write!(f, "Unknown {what}: {sign}{id}"),
        }
    }
}

/// What can go wrong in a pattern.
#[derive(Clone, Debug, Eq, PartialEq)]
pub enum ResolverError {
    /// A reference to what isn't there.
    Reference(ReferenceKind),
    /// A reference to a message without a value.
    NoValue(String),
    /// A select expression of which no variant is the default.
    MissingDefault,
    /// A pattern that refers to itself.
    Cyclic,
    /// More placeables than one call opens.
    TooManyPlaceables,
}

impl fmt::Display for ResolverError {
    fn fmt(&self, f: &mut fmt::Formatter<'_>) -> fmt::Result {
        match self {
            Self::Reference(reference) => reference.fmt(f),
            Self::NoValue(id) => write!(f, "No value: {id}"),
            Self::MissingDefault => f.write_str("No default"),
            Self::Cyclic => f.write_str("Cyclical dependency detected"),
            Self::TooManyPlaceables => f.write_str("Too many placeables"),
        }
    }
}

impl Error for ResolverError {}
