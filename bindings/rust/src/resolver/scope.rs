//! A bundle as values see it.

use super::ResolverError;
use crate::bundle::FluentBundle;
use crate::{FluentArgs, FluentError};
use std::marker::PhantomData;

/// What a value is compared and shown by: a bundle, and a list of errors.
///
/// Unlike in the crate, no pattern is written by it: its calls that take trees are left out.
pub struct Scope<'bundle, 'ast, 'args, 'errors, R, M> {
    /// The bundle.
    pub bundle: &'bundle FluentBundle<R, M>,
    /// The arguments.
    pub args: Option<&'args FluentArgs<'args>>,
    /// Where errors are added.
    pub errors: Option<&'errors mut Vec<FluentError>>,
    tree: PhantomData<&'ast ()>,
}

impl<'bundle, 'ast, 'args, 'errors, R, M> Scope<'bundle, 'ast, 'args, 'errors, R, M> {
    /// The scope of a bundle.
    pub fn new(
        bundle: &'bundle FluentBundle<R, M>,
        args: Option<&'args FluentArgs<'args>>,
        errors: Option<&'errors mut Vec<FluentError>>,
    ) -> Self {
        Self {
            bundle,
            args,
            errors,
            tree: PhantomData,
        }
    }

    /// Adds an error, where there is a list.
    pub fn add_error(&mut self, error: ResolverError) {
        if let Some(errors) = self.errors.as_mut() {
            errors.push(error.into());
        }
    }
}
