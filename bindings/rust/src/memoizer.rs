//! What a bundle's formatters are kept in, for one thread or for several.

use crate::intl_memoizer::{self, Memoizable};
use crate::types::FluentType;
use crate::unic_langid::LanguageIdentifier;
use std::borrow::Cow;

/// A store of formatters.
pub trait MemoizerKind: 'static {
    /// An empty store for a language.
    fn new(lang: LanguageIdentifier) -> Self
    where
        Self: Sized;

    /// Calls a closure with the formatter of some arguments, which is made where there is none yet.
    fn with_try_get_threadsafe<I, R, U>(&self, args: I::Args, callback: U) -> Result<R, I::Error>
    where
        Self: Sized,
        I: Memoizable + Send + Sync + 'static,
        I::Args: Send + Sync + 'static,
        U: FnOnce(&I) -> R;

    /// The text of a value, by the call that its type has for such a store.
    fn stringify_value(&self, value: &dyn FluentType) -> Cow<'static, str>;
}

impl MemoizerKind for intl_memoizer::IntlLangMemoizer {
    fn new(lang: LanguageIdentifier) -> Self {
        Self::new(lang)
    }

    fn with_try_get_threadsafe<I, R, U>(&self, args: I::Args, callback: U) -> Result<R, I::Error>
    where
        I: Memoizable + Send + Sync + 'static,
        I::Args: Send + Sync + 'static,
        U: FnOnce(&I) -> R,
    {
        self.with_try_get(args, callback)
    }

    fn stringify_value(&self, value: &dyn FluentType) -> Cow<'static, str> {
        value.as_string(self)
    }
}

impl MemoizerKind for intl_memoizer::concurrent::IntlLangMemoizer {
    fn new(lang: LanguageIdentifier) -> Self {
        Self::new(lang)
    }

    fn with_try_get_threadsafe<I, R, U>(&self, args: I::Args, callback: U) -> Result<R, I::Error>
    where
        I: Memoizable + Send + Sync + 'static,
        I::Args: Send + Sync + 'static,
        U: FnOnce(&I) -> R,
    {
        self.with_try_get(args, callback)
    }

    fn stringify_value(&self, value: &dyn FluentType) -> Cow<'static, str> {
        value.as_string_threadsafe(self)
    }
}
