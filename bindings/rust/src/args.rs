//! The arguments of a formatting call.

use crate::types::FluentValue;
use std::borrow::Cow;

/// A map from the names of arguments to their values, in the order of the names.
///
/// ```
/// use fluent_bundle::{FluentArgs, FluentValue};
///
/// let mut args = FluentArgs::new();
/// args.set("user", "Ada");
/// args.set("mails", 5);
/// assert_eq!(args.get("user"), Some(&FluentValue::from("Ada")));
/// assert_eq!(args.iter().map(|(name, _)| name).collect::<Vec<_>>(), ["mails", "user"]);
/// ```
///
/// A name or a text of 4 GB or more is an error value to a pattern.
#[derive(Debug, Default)]
pub struct FluentArgs<'args>(Vec<(Cow<'args, str>, FluentValue<'args>)>);

impl<'args> FluentArgs<'args> {
    /// No arguments.
    pub fn new() -> Self {
        Self::default()
    }

    /// No arguments, with room for some.
    pub fn with_capacity(capacity: usize) -> Self {
        Self(Vec::with_capacity(capacity))
    }

    fn place(&self, name: &str) -> Result<usize, usize> {
        self.0
            .binary_search_by(|(other, _)| other.as_ref().cmp(name))
    }

    /// The value of a name.
    pub fn get<K>(&self, key: K) -> Option<&FluentValue<'args>>
    where
        K: Into<Cow<'args, str>>,
    {
        let at = self.place(&key.into()).ok()?;
        self.0.get(at).map(|(_, value)| value)
    }

    /// Gives a name its value, in the place of the one that it had.
    pub fn set<K, V>(&mut self, key: K, value: V)
    where
        K: Into<Cow<'args, str>>,
        V: Into<FluentValue<'args>>,
    {
        let pair = (key.into(), value.into());
        match self.place(&pair.0) {
            Ok(at) => self.0[at] = pair,
            Err(at) => self.0.insert(at, pair),
        }
    }

    /// The names and their values, in the order of the names.
    pub fn iter(&self) -> impl Iterator<Item = (&str, &FluentValue<'_>)> {
        self.0.iter().map(|(name, value)| (name.as_ref(), value))
    }

    pub(crate) fn len(&self) -> usize {
        self.0.len()
    }
}

impl<'args, K, V> FromIterator<(K, V)> for FluentArgs<'args>
where
    K: Into<Cow<'args, str>>,
    V: Into<FluentValue<'args>>,
{
    fn from_iter<I>(pairs: I) -> Self
    where
        I: IntoIterator<Item = (K, V)>,
    {
        let mut args = Self::new();
        for (name, value) in pairs {
            args.set(name, value);
        }
        args
    }
}

impl<'args> IntoIterator for FluentArgs<'args> {
    type Item = (Cow<'args, str>, FluentValue<'args>);
    type IntoIter = std::vec::IntoIter<Self::Item>;

    fn into_iter(self) -> Self::IntoIter {
        self.0.into_iter()
    }
}

/// Arguments by their names, as in the crate `fluent`.
///
/// ```
/// use fluent_bundle::{fluent_args, FluentValue};
///
/// let args = fluent_args!["user" => "Ada", "mails" => 5];
/// assert_eq!(args.get("mails"), Some(&FluentValue::from(5)));
/// ```
#[macro_export]
macro_rules! fluent_args {
    ($($name:expr => $value:expr),* $(,)?) => {{
        #[allow(unused_mut)]
        let mut args = $crate::FluentArgs::new();
        $(args.set($name, $value);)*
        args
    }};
}
