//! How many entries of each kind there are.

use fluent_syntax::ast::Entry;

#[derive(Clone, Copy, Default)]
pub struct Count {
    pub messages: usize,
    pub terms: usize,
    pub junk: usize,
}

impl Count {
    pub fn of(entries: &[Entry]) -> Count {
        let mut count = Count::default();
        for entry in entries.iter() {
            match entry {
                Entry::Message(_) => count.messages = count.messages.saturating_add(1),
                Entry::Term(_) => count.terms = count.terms.saturating_add(1),
                Entry::Junk { .. } => count.junk = count.junk.saturating_add(1),
            }
        }
        count
    }
}
