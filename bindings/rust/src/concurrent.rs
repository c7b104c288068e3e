//! Bundles that go between threads.

use crate::intl_memoizer::concurrent::IntlLangMemoizer;
use crate::unic_langid::LanguageIdentifier;

/// A bundle that threads may share, where its resources may be. The library is asked by one of them at a time.
///
/// ```
/// use fluent_bundle::concurrent::FluentBundle;
/// use fluent_bundle::FluentResource;
///
/// let resource = FluentResource::try_new("hello = Hello!".to_string()).expect("it can be read");
/// let mut bundle = FluentBundle::new_concurrent(vec![]);
/// bundle.add_resource(resource).expect("its id is new");
/// std::thread::scope(|threads| {
///     threads.spawn(|| assert!(bundle.has_message("hello")));
/// });
/// ```
pub type FluentBundle<R> = crate::bundle::FluentBundle<R, IntlLangMemoizer>;

impl<R> FluentBundle<R> {
    /// A bundle as [`new`](crate::bundle::FluentBundle::new) makes it.
    pub fn new_concurrent(locales: Vec<LanguageIdentifier>) -> Self {
        Self::with_intls(locales)
    }
}
