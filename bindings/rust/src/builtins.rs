//! The function that Fluent has for patterns.

use crate::{FluentArgs, FluentValue};

/// The first value with its options merged with the named arguments, where it is a number; else an error value.
///
/// A bundle with [`add_builtins`](crate::bundle::FluentBundle::add_builtins) takes the library's own, which answers the same.
#[allow(non_snake_case)]
pub fn NUMBER<'a>(positional: &[FluentValue<'a>], named: &FluentArgs) -> FluentValue<'a> {
    match positional.first() {
        Some(FluentValue::Number(number)) => {
            let mut number = number.clone();
            number.options.merge(named);
            FluentValue::Number(number)
        }
        _ => FluentValue::Error,
    }
}
