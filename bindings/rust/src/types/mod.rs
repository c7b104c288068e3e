//! Values: texts, numbers, and types of the program's own.

mod decimal;
mod number;

pub(crate) use decimal::Decimal;
pub use number::*;

use crate::memoizer::MemoizerKind;
use crate::resolver::Scope;
use crate::{intl_memoizer, library};
use std::any::Any;
use std::borrow::Cow;
use std::fmt;
use std::str::FromStr;

/// A type of the program's own, as a date.
///
/// Unlike in the crate its text is asked for when a value is handed to a pattern, whether the pattern shows it or not.
pub trait FluentType: fmt::Debug + AnyEq + 'static {
    /// A copy.
    fn duplicate(&self) -> Box<dyn FluentType + Send>;

    /// The text that it is shown as.
    fn as_string(&self, intls: &intl_memoizer::IntlLangMemoizer) -> Cow<'static, str>;

    /// The same in a bundle that goes between threads.
    fn as_string_threadsafe(
        &self,
        intls: &intl_memoizer::concurrent::IntlLangMemoizer,
    ) -> Cow<'static, str>;
}

impl PartialEq for dyn FluentType + Send {
    fn eq(&self, other: &Self) -> bool {
        self.equals(other.as_any())
    }
}

/// Equality of values whose types are not known. Each type with an equality has it.
pub trait AnyEq: Any + 'static {
    /// Whether the other is of the same type, and equal.
    fn equals(&self, other: &dyn Any) -> bool;
    /// This value, as one whose type is not known.
    fn as_any(&self) -> &dyn Any;
}

impl<T: Any + PartialEq> AnyEq for T {
    fn equals(&self, other: &dyn Any) -> bool {
        other.downcast_ref::<Self>() == Some(self)
    }

    fn as_any(&self) -> &dyn Any {
        self
    }
}

/// What an argument is, and what a function takes and answers.
#[derive(Debug)]
pub enum FluentValue<'source> {
    /// A text.
    String(Cow<'source, str>),
    /// A number.
    Number(FluentNumber),
    /// A value of the program's own type.
    Custom(Box<dyn FluentType + Send>),
    /// No value: nothing is shown.
    None,
    /// What could not be found or made.
    Error,
}

/// `None` and `Error` are equal to nothing.
impl PartialEq for FluentValue<'_> {
    fn eq(&self, other: &Self) -> bool {
        match (self, other) {
            (Self::String(one), Self::String(two)) => one == two,
            (Self::Number(one), Self::Number(two)) => one == two,
            (Self::Custom(one), Self::Custom(two)) => one == two,
            _ => false,
        }
    }
}

impl Clone for FluentValue<'_> {
    fn clone(&self) -> Self {
        match self {
            Self::String(text) => Self::String(text.clone()),
            Self::Number(number) => Self::Number(number.clone()),
            Self::Custom(value) => Self::Custom(value.duplicate()),
            Self::None => Self::None,
            Self::Error => Self::Error,
        }
    }
}

impl<'source> FluentValue<'source> {
    /// The number that a text writes, else the text.
    ///
    /// ```
    /// use fluent_bundle::FluentValue;
    ///
    /// assert_eq!(FluentValue::try_number("2"), FluentValue::from(2));
    /// assert_eq!(FluentValue::try_number("two"), FluentValue::from("two"));
    /// ```
    ///
    /// Unlike in the crate, texts with an exponent and `inf` are texts, as [`FluentNumber`] says.
    pub fn try_number(value: &'source str) -> Self {
        match FluentNumber::from_str(value) {
            Ok(number) => number.into(),
            Err(_) => value.into(),
        }
    }

    /// Whether this value is a key that takes another: equal texts, equal numbers, or the name of a number's plural category.
    ///
    /// ```
    /// use fluent_bundle::resolver::Scope;
    /// use fluent_bundle::unic_langid::langid;
    /// use fluent_bundle::{FluentBundle, FluentResource, FluentValue};
    ///
    /// let bundle: FluentBundle<FluentResource> = FluentBundle::new(vec![langid!("pl")]);
    /// let scope = Scope::new(&bundle, None, None);
    /// assert!(FluentValue::from("few").matches(&FluentValue::from(3), &scope));
    /// assert!(!FluentValue::from("few").matches(&FluentValue::from(5), &scope));
    /// ```
    pub fn matches<R, M>(&self, other: &FluentValue, scope: &Scope<R, M>) -> bool
    where
        M: MemoizerKind,
    {
        match (self, other) {
            (Self::String(key), FluentValue::Number(number)) => {
                library::is_category(scope.bundle.plural_language(), key, number)
            }
            (Self::String(key), FluentValue::String(text)) => key == text,
            (Self::Number(key), FluentValue::Number(number)) => key == number,
            _ => false,
        }
    }

    /// Writes the text that this value is shown as: the formatter's, where it gives one.
    pub fn write<W, R, M>(&self, w: &mut W, scope: &Scope<R, M>) -> fmt::Result
    where
        W: fmt::Write,
        M: MemoizerKind,
    {
        w.write_str(&self.as_string(scope))
    }

    /// The text that this value is shown as: the formatter's, where it gives one.
    pub fn as_string<R, M>(&self, scope: &Scope<R, M>) -> Cow<'source, str>
    where
        M: MemoizerKind,
    {
        match scope.bundle.formatted(self) {
            Some(text) => text.into(),
            None => self.own_text(scope.bundle.intls()),
        }
    }

    /// The same, without a copy of a text.
    pub fn into_string<R, M>(self, scope: &Scope<R, M>) -> Cow<'source, str>
    where
        M: MemoizerKind,
    {
        match (scope.bundle.formatted(&self), self) {
            (Some(text), _) => text.into(),
            (None, Self::String(text)) => text,
            (None, value) => value.own_text(scope.bundle.intls()),
        }
    }

    /// The text without a formatter.
    fn own_text<M: MemoizerKind>(&self, intls: &M) -> Cow<'source, str> {
        match self {
            Self::String(text) => text.clone(),
            Self::Number(number) => number.as_string(),
            Self::Custom(value) => intls.stringify_value(&**value),
            Self::None | Self::Error => "".into(),
        }
    }

    /// A copy that borrows nothing.
    pub fn into_owned<'a>(&self) -> FluentValue<'a> {
        match self {
            Self::String(text) => FluentValue::String(Cow::Owned(text.to_string())),
            Self::Number(number) => FluentValue::Number(number.clone()),
            Self::Custom(value) => FluentValue::Custom(value.duplicate()),
            Self::None => FluentValue::None,
            Self::Error => FluentValue::Error,
        }
    }
}

impl From<String> for FluentValue<'_> {
    fn from(text: String) -> Self {
        Self::String(text.into())
    }
}

impl<'source> From<&'source String> for FluentValue<'source> {
    fn from(text: &'source String) -> Self {
        Self::String(text.into())
    }
}

impl<'source> From<&'source str> for FluentValue<'source> {
    fn from(text: &'source str) -> Self {
        Self::String(text.into())
    }
}

impl<'source> From<Cow<'source, str>> for FluentValue<'source> {
    fn from(text: Cow<'source, str>) -> Self {
        Self::String(text)
    }
}

impl<'source, T> From<Option<T>> for FluentValue<'source>
where
    T: Into<FluentValue<'source>>,
{
    fn from(value: Option<T>) -> Self {
        value.map_or(Self::None, Into::into)
    }
}
