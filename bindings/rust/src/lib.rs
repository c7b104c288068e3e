//! Fluent, Mozilla's localization system, by the names of the crate `fluent-bundle` 0.16, over `libfluent`: a library that is
//! proved to read, to look up and to resolve as Fluent's documents say.
//!
//! A program takes this crate in the place of `fluent-bundle` by one line of its `Cargo.toml`:
//!
//! ```toml
//! fluent-bundle = { package = "fluent-rattle", path = "bindings/rust" }
//! ```
//!
//! `unic-langid`, `intl-memoizer` and `fluent-syntax` have small stand-ins here: [`unic_langid`] (with [`langid!`]),
//! [`intl_memoizer`] and [`ast`].
//!
//! ```
//! use fluent_bundle::unic_langid::langid;
//! use fluent_bundle::{fluent_args, FluentBundle, FluentResource};
//!
//! let source = "mails = { $n ->\n [one] One mail\n *[other] { $n } mails\n }\n";
//! let resource = FluentResource::try_new(source.to_string()).expect("it can be read");
//! let mut bundle = FluentBundle::new(vec![langid!("en-US")]);
//! bundle.set_use_isolating(false);
//! bundle.add_resource(resource).expect("its ids are new");
//!
//! let message = bundle.get_message("mails").expect("it is there");
//! let pattern = message.value().expect("it has a value");
//! let mut errors = vec![];
//! let text = bundle.format_pattern(pattern, Some(&fluent_args!["n" => 3]), &mut errors);
//! assert_eq!(text, "3 mails");
//! ```
//!
//! # Unlike the crate
//!
//! No call panics but where an object of the program does. Where there is no memory the process stops, as it does for std's
//! own collections. What differs otherwise stands with each item, and for FTL itself in the repository's page of differences.
#![deny(unsafe_code)]
#![warn(missing_docs)]

mod args;
mod asking;
pub mod ast;
pub mod builtins;
pub mod bundle;
pub mod concurrent;
mod errors;
mod ffi;
pub mod intl_memoizer;
mod library;
#[doc(hidden)]
pub mod memoizer;
mod message;
mod records;
mod report;
#[doc(hidden)]
pub mod resolver;
mod resource;
pub mod types;
pub mod unic_langid;

pub use args::FluentArgs;
pub use errors::{EntryKind, FluentError, ParserError};
pub use message::{FluentAttribute, FluentMessage};
pub use resource::FluentResource;
#[doc(inline)]
pub use types::FluentValue;

/// A bundle whose formatters are kept for one thread; [`concurrent::FluentBundle`] goes between threads.
pub type FluentBundle<R> = bundle::FluentBundle<R, intl_memoizer::IntlLangMemoizer>;
