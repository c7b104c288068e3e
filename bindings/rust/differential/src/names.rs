//! The imports that differ: what the crate takes from others is in modules of this one.

#[cfg(feature = "upstream")]
pub use intl_memoizer::{concurrent, IntlLangMemoizer};
#[cfg(feature = "upstream")]
pub use unic_langid::LanguageIdentifier;

#[cfg(not(feature = "upstream"))]
pub use fluent_bundle::intl_memoizer::{concurrent, IntlLangMemoizer};
#[cfg(not(feature = "upstream"))]
pub use fluent_bundle::unic_langid::LanguageIdentifier;
