//! A stand-in for the module of this name of `fluent-syntax`: what entries a source has, and patterns as names of texts.
//!
//! A pattern is no tree here. It is the id of a message and perhaps the name of an attribute, and means what they name in the
//! bundle that formats it. The type parameter is there for programs that write it.

use std::fmt;
use std::marker::PhantomData;
use std::sync::Arc;

/// The value of a message, or one of its attributes.
#[derive(Clone, Eq, PartialEq)]
pub struct Pattern<S> {
    pub(crate) id: Arc<str>,
    pub(crate) attribute: Option<Arc<str>>,
    text: PhantomData<S>,
}

impl<S> Pattern<S> {
    pub(crate) fn value_of(id: &Arc<str>) -> Self {
        Self {
            id: id.clone(),
            attribute: None,
            text: PhantomData,
        }
    }

    fn attribute_of(id: &Arc<str>, name: &str) -> Self {
        Self {
            attribute: Some(name.into()),
            ..Self::value_of(id)
        }
    }

    pub(crate) fn attribute_name(&self) -> &str {
        self.attribute.as_deref().unwrap_or("")
    }
}

/// As a message refers to it: `id` or `id.name`.
impl<S> fmt::Display for Pattern<S> {
    fn fmt(&self, f: &mut fmt::Formatter<'_>) -> fmt::Result {
        f.write_str(&self.id)?;
        match &self.attribute {
            Some(name) => write!(f, ".{name}"),
            None => Ok(()),
        }
    }
}

impl<S> fmt::Debug for Pattern<S> {
    fn fmt(&self, f: &mut fmt::Formatter<'_>) -> fmt::Result {
        write!(f, "Pattern({self})")
    }
}

/// An attribute of a message.
#[derive(Clone, Debug, Eq, PartialEq)]
pub struct Attribute<S> {
    pub(crate) name: Arc<str>,
    pub(crate) value: Pattern<S>,
}

/// A message.
#[derive(Clone, Debug, Eq, PartialEq)]
pub struct Message<S> {
    pub(crate) id: Arc<str>,
    /// Its value, where it has one.
    pub value: Option<Pattern<S>>,
    /// Its attributes, in the order of the source.
    pub attributes: Vec<Attribute<S>>,
}

impl<S> Message<S> {
    /// A message by what the library says of it.
    pub(crate) fn new<'n>(id: &str, has_value: bool, names: impl Iterator<Item = &'n str>) -> Self {
        let id: Arc<str> = id.into();
        let attribute = |name| Attribute {
            name: Arc::from(name),
            value: Pattern::attribute_of(&id, name),
        };
        Self {
            value: has_value.then(|| Pattern::value_of(&id)),
            attributes: names.map(attribute).collect(),
            id,
        }
    }

    /// Its id.
    pub fn id(&self) -> &str {
        &self.id
    }
}

/// A term, of which a program sees the id alone.
#[derive(Clone, Debug, Eq, PartialEq)]
pub struct Term<S> {
    id: Box<str>,
    text: PhantomData<S>,
}

impl<S> Term<S> {
    pub(crate) fn new(id: &str) -> Self {
        Self {
            id: id.into(),
            text: PhantomData,
        }
    }

    /// Its id, without its dash.
    pub fn id(&self) -> &str {
        &self.id
    }
}

/// A part of a source.
#[derive(Clone, Debug, Eq, PartialEq)]
pub enum Entry<S> {
    /// A message.
    Message(Message<S>),
    /// A term.
    Term(Term<S>),
    /// What can't be read.
    Junk {
        /// Its text.
        content: String,
    },
}
