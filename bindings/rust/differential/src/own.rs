//! What the programs hand in: functions, transforms, formatters, and a type of their own.

use crate::names::{concurrent, IntlLangMemoizer};
use fluent_bundle::types::FluentType;
use fluent_bundle::{FluentArgs, FluentValue};
use std::borrow::Cow;

#[derive(Clone, Debug, PartialEq)]
pub struct Own(pub i64);

impl FluentType for Own {
    fn duplicate(&self) -> Box<dyn FluentType + Send> {
        Box::new(self.clone())
    }

    fn as_string(&self, _: &IntlLangMemoizer) -> Cow<'static, str> {
        format!("own {}\nline", self.0).into()
    }

    fn as_string_threadsafe(&self, _: &concurrent::IntlLangMemoizer) -> Cow<'static, str> {
        format!("own {}", self.0).into()
    }
}

/// A value without a float's text.
pub fn shown(value: &FluentValue) -> String {
    match value {
        FluentValue::String(text) => format!("{text:?}"),
        FluentValue::Number(number) => format!("{} {:?}", number.as_string(), number.options),
        FluentValue::Custom(value) => format!("{value:?}"),
        FluentValue::None => "None".to_string(),
        FluentValue::Error => "Error".to_string(),
    }
}

pub type Function = for<'a> fn(&[FluentValue<'a>], &FluentArgs) -> FluentValue<'a>;

pub fn function(name: &str) -> Function {
    match name {
        "ECHO" => |positional, _| positional.first().cloned().unwrap_or(FluentValue::Error),
        "JOIN" => |positional, _| {
            positional
                .iter()
                .map(shown)
                .collect::<Vec<_>>()
                .join("+")
                .into()
        },
        "NAMED" => |_, named| {
            let pairs = named
                .iter()
                .map(|(name, value)| format!("{name}={}", shown(value)));
            pairs.collect::<Vec<_>>().join(",").into()
        },
        "NONE" => |_, _| FluentValue::None,
        "LENGTH" => |positional, named| (positional.len() * 10 + named.iter().count()).into(),
        "OWN" => |positional, _| FluentValue::Custom(Box::new(Own(positional.len() as i64))),
        "OPTIONS" => |positional, named| match positional.first() {
            Some(FluentValue::Number(number)) => {
                let mut number = number.clone();
                number.options.merge(named);
                number.into()
            }
            Some(value) => value.clone(),
            None => FluentValue::None,
        },
        _ => |_, _| FluentValue::Error,
    }
}

pub type Transform = fn(&str) -> Cow<str>;

pub const TRANSFORMS: [Option<Transform>; 3] = [
    None,
    Some(|text| text.to_uppercase().into()),
    Some(|text| text.trim_end().into()),
];

pub type Formatter<M> = fn(&FluentValue, &M) -> Option<String>;

pub fn formatters<M>() -> [Option<Formatter<M>>; 4] {
    [
        None,
        Some(|value, _| match value {
            FluentValue::Number(_) => Some(format!("<{}>", shown(value))),
            _ => None,
        }),
        Some(|value, _| Some(format!("[{}]", shown(value)))),
        Some(|value, _| match value {
            FluentValue::Custom(value) => Some(format!("{value:?}")),
            FluentValue::None | FluentValue::Error => Some("nothing".to_string()),
            _ => None,
        }),
    ]
}
