//! What is reported of patterns, and what a value is compared and shown by.

pub mod errors;
mod scope;

pub use errors::ResolverError;
pub use scope::Scope;
