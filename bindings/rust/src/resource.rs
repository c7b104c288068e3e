//! Sources.

use crate::ast::{Entry, Message, Term};
use crate::errors::{EntryKind, FluentError, ParserError};
use crate::ffi::Bundle;
use crate::library::{self, with_memory};
use std::collections::HashSet;
use std::fmt;
use std::sync::{Arc, OnceLock};

/// A source of FTL, which can be added to bundles.
///
/// ```
/// use fluent_bundle::FluentResource;
///
/// let resource = FluentResource::try_new("hello = Hello!\n".to_string()).expect("it can be read");
/// assert_eq!(resource.source(), "hello = Hello!\n");
///
/// let (resource, errors) = FluentResource::try_new("hello = {\n".to_string()).expect_err("a Junk");
/// assert_eq!(errors[0].to_string(), "unreadable entry at bytes 0..10");
/// assert_eq!(resource.entries().count(), 1);
/// ```
pub struct FluentResource {
    source: Arc<String>,
    ids: Vec<Box<str>>,
    entries: OnceLock<Vec<Entry<&'static str>>>,
}

impl FluentResource {
    /// Reads a source. What of it can't be read is reported, and the rest is there all the same.
    ///
    /// The grammar decides what can be read, as the repository's page of differences says.
    #[allow(clippy::result_large_err)]
    pub fn try_new(source: String) -> Result<Self, (Self, Vec<ParserError>)> {
        let mut bundle = library::open("en", false).bundle;
        with_memory(bundle.add(&source, false));
        let ids = library::ids(&mut bundle);
        let mut ids: Vec<Box<str>> = ids.lines().map(Box::from).collect();
        let mut unreadable = Vec::new();
        for told in library::told(&mut bundle) {
            match told.error {
                FluentError::ParserError(error) => unreadable.push(error),
                // It was left since its id stood before it, which may be a term's.
                FluentError::Overriding {
                    kind: EntryKind::Message,
                    id,
                } => ids.push(id.into()),
                _ => {}
            }
        }
        let resource = Self {
            source: Arc::new(source),
            ids,
            entries: OnceLock::new(),
        };
        if unreadable.is_empty() {
            Ok(resource)
        } else {
            Err((resource, unreadable))
        }
    }

    /// The source.
    pub fn source(&self) -> &str {
        &self.source
    }

    pub(crate) fn shared_source(&self) -> Arc<String> {
        self.source.clone()
    }

    /// The ids of its messages.
    pub(crate) fn ids(&self) -> impl Iterator<Item = &str> {
        self.ids.iter().map(|id| &**id)
    }

    /// Its entries, in order.
    ///
    /// Of several messages with one id, the first has its own attributes, and the others those of the last.
    pub fn entries(&self) -> impl Iterator<Item = &Entry<&str>> {
        self.read_entries().iter()
    }

    /// The entry at an index.
    pub fn get_entry(&self, idx: usize) -> Option<&Entry<&str>> {
        self.read_entries().get(idx)
    }

    fn read_entries(&self) -> &[Entry<&str>] {
        self.entries.get_or_init(|| entries_of(self))
    }
}

impl fmt::Debug for FluentResource {
    fn fmt(&self, f: &mut fmt::Formatter<'_>) -> fmt::Result {
        f.debug_tuple("FluentResource").field(&self.source).finish()
    }
}

/// Reads a source once more: of what is there when it is added a second time, each entry is told.
fn entries_of(resource: &FluentResource) -> Vec<Entry<&'static str>> {
    let source = resource.source();
    let mut firsts = library::open("en", false).bundle;
    with_memory(firsts.add(source, false));
    with_memory(firsts.add(source, false));
    let mut lasts = library::open("en", false).bundle;
    with_memory(lasts.add(source, true));

    let mut seen = HashSet::new();
    let mut entries = Vec::new();
    for told in library::told(&mut firsts) {
        let entry = match told.error {
            FluentError::Overriding {
                kind: EntryKind::Term,
                id,
            } => {
                seen.insert(id.clone());
                Entry::Term(Term::new(&id))
            }
            FluentError::Overriding { id, .. } => {
                let is_first = seen.insert(id.clone());
                let bundle = if is_first { &mut firsts } else { &mut lasts };
                Entry::Message(message(bundle, &id))
            }
            FluentError::ParserError(error) => Entry::Junk {
                content: source.get(error.pos).unwrap_or("").to_string(),
            },
            FluentError::ResolverError(_) => continue,
        };
        entries.push((told.line, entry));
    }
    entries.sort_by_key(|(line, _)| *line);
    entries.into_iter().map(|(_, entry)| entry).collect()
}

/// A message by what a bundle says of it.
pub(crate) fn message(bundle: &mut Bundle, id: &str) -> Message<&'static str> {
    let names = library::attributes(bundle, id);
    Message::new(id, bundle.has_value(id), names.lines())
}
