//! Numbers and their options.

use super::decimal::Decimal;
use super::FluentValue;
use crate::args::FluentArgs;
use std::borrow::Cow;
use std::num::ParseFloatError;
use std::str::FromStr;

/// Which plural rules a number goes by.
#[derive(Clone, Copy, Debug, Default, Eq, Hash, PartialEq)]
pub enum FluentNumberType {
    /// Those of counts.
    #[default]
    Cardinal,
    /// Those of ranks.
    Ordinal,
}

impl From<&str> for FluentNumberType {
    fn from(text: &str) -> Self {
        match text {
            "ordinal" => Self::Ordinal,
            _ => Self::Cardinal,
        }
    }
}

/// What a number counts.
#[derive(Clone, Copy, Debug, Default, Eq, Hash, PartialEq)]
pub enum FluentNumberStyle {
    /// Nothing said.
    #[default]
    Decimal,
    /// Money.
    Currency,
    /// Parts of a hundred.
    Percent,
}

impl From<&str> for FluentNumberStyle {
    fn from(text: &str) -> Self {
        match text {
            "currency" => Self::Currency,
            "percent" => Self::Percent,
            _ => Self::Decimal,
        }
    }
}

/// How a currency is shown.
#[derive(Clone, Copy, Debug, Default, Eq, Hash, PartialEq)]
pub enum FluentNumberCurrencyDisplayStyle {
    /// By its sign.
    #[default]
    Symbol,
    /// By its code.
    Code,
    /// By its name.
    Name,
}

impl From<&str> for FluentNumberCurrencyDisplayStyle {
    fn from(text: &str) -> Self {
        match text {
            "code" => Self::Code,
            "name" => Self::Name,
            _ => Self::Symbol,
        }
    }
}

/// How a number is to be shown. Type and minimum of fraction digits count by themselves, the others for a formatter and for
/// equality.
#[derive(Clone, Debug, Eq, Hash, PartialEq)]
pub struct FluentNumberOptions {
    /// Which plural rules it goes by.
    pub r#type: FluentNumberType,
    /// What it counts.
    pub style: FluentNumberStyle,
    /// The code of its currency.
    pub currency: Option<String>,
    /// How its currency is shown.
    pub currency_display: FluentNumberCurrencyDisplayStyle,
    /// Whether its digits are grouped.
    pub use_grouping: bool,
    /// How many digits stand before the point at least.
    pub minimum_integer_digits: Option<usize>,
    /// How many stand after it at least. Above 18 it counts as 18.
    pub minimum_fraction_digits: Option<usize>,
    /// How many stand after it at most.
    pub maximum_fraction_digits: Option<usize>,
    /// How many significant digits there are at least.
    pub minimum_significant_digits: Option<usize>,
    /// How many there are at most.
    pub maximum_significant_digits: Option<usize>,
}

impl Default for FluentNumberOptions {
    fn default() -> Self {
        Self {
            r#type: FluentNumberType::Cardinal,
            style: FluentNumberStyle::Decimal,
            currency: None,
            currency_display: FluentNumberCurrencyDisplayStyle::Symbol,
            use_grouping: true,
            minimum_integer_digits: None,
            minimum_fraction_digits: None,
            maximum_fraction_digits: None,
            minimum_significant_digits: None,
            maximum_significant_digits: None,
        }
    }
}

impl FluentNumberOptions {
    /// Takes what the named arguments of `NUMBER` say, and passes over the others.
    pub fn merge(&mut self, opts: &FluentArgs) {
        for (name, value) in opts.iter() {
            match value {
                FluentValue::String(text) => self.set_word(name, text),
                FluentValue::Number(number) => self.set_count(name, number.into()),
                _ => {}
            }
        }
    }

    pub(crate) fn set_word(&mut self, name: &str, text: &str) {
        match name {
            "type" => self.r#type = text.into(),
            "style" => self.style = text.into(),
            "currency" => self.currency = Some(text.to_string()),
            "currencyDisplay" => self.currency_display = text.into(),
            "useGrouping" => self.use_grouping = text != "false",
            _ => {}
        }
    }

    pub(crate) fn set_count(&mut self, name: &str, count: usize) {
        match name {
            "minimumIntegerDigits" => self.minimum_integer_digits = Some(count),
            "minimumFractionDigits" => self.minimum_fraction_digits = Some(count),
            "maximumFractionDigits" => self.maximum_fraction_digits = Some(count),
            "minimumSignificantDigits" => self.minimum_significant_digits = Some(count),
            "maximumSignificantDigits" => self.maximum_significant_digits = Some(count),
            _ => {}
        }
    }
}

/// A number with its options.
///
/// Unlike in the crate it is an exact decimal: a whole part below 2^64 and 18 digits after the point. `value` is the float next
/// to it, and what it is set to counts. Where a float is none of these numbers (`inf`, `NaN`, a greater one, one with more
/// digits), a pattern takes its text. Zero has no sign.
///
/// ```
/// use fluent_bundle::types::FluentNumber;
///
/// let number: FluentNumber = "9007199254740993".parse().expect("a number");
/// assert_eq!(number.as_string(), "9007199254740993");
/// assert_eq!(number.value, 9007199254740992.0);
/// ```
#[derive(Clone, Debug)]
pub struct FluentNumber {
    /// The float next to the number.
    pub value: f64,
    /// Its options.
    pub options: FluentNumberOptions,
    /// The number, where it is another than the float's shortest text.
    exact: Option<Decimal>,
}

impl FluentNumber {
    /// The number that is the shortest text of a float.
    pub const fn new(value: f64, options: FluentNumberOptions) -> Self {
        Self {
            value,
            options,
            exact: None,
        }
    }

    /// An exact number, and the float next to it.
    fn exactly(number: Decimal, value: f64) -> Self {
        Self {
            value,
            options: FluentNumberOptions::default(),
            exact: Some(number).filter(|_| Decimal::of(value) != Some(number)),
        }
    }

    /// The number, where it is one to the library: what was kept beside the float, unless that was set anew.
    pub(crate) fn decimal(&self) -> Option<Decimal> {
        match self.exact {
            Some(number) if float_next_to(number) == self.value => Some(number),
            _ => Decimal::of(self.value),
        }
    }

    /// Its text, with its minimum of fraction digits.
    pub fn as_string(&self) -> Cow<'static, str> {
        let text = match self.decimal() {
            Some(number) => number.text(self.options.minimum_fraction_digits),
            None => self.value.to_string(),
        };
        text.into()
    }
}

fn float_next_to(number: Decimal) -> f64 {
    number.text(None).parse().unwrap_or(f64::NAN)
}

/// Equal where the numbers and their options are.
impl PartialEq for FluentNumber {
    fn eq(&self, other: &Self) -> bool {
        self.options == other.options
            && match (self.decimal(), other.decimal()) {
                (Some(one), Some(two)) => one == two,
                (None, None) => self.value == other.value,
                _ => false,
            }
    }
}

/// Reads a sign if there is one, digits, and a point if there is one. The count of digits after the point is the minimum of
/// fraction digits. Unlike the crate it takes no exponents, `inf` and `NaN`.
impl FromStr for FluentNumber {
    type Err = ParseFloatError;

    fn from_str(input: &str) -> Result<Self, Self::Err> {
        match Decimal::read(input) {
            Some((number, places)) => {
                let mut number = Self::exactly(number, float_next_to(number));
                number.options.minimum_fraction_digits = places;
                Ok(number)
            }
            // Never a number, so it is std's own error.
            None => "".parse().map(|value| Self::new(value, Default::default())),
        }
    }
}

impl From<FluentNumber> for FluentValue<'_> {
    fn from(number: FluentNumber) -> Self {
        FluentValue::Number(number)
    }
}

macro_rules! of_whole {
    ($($type:ty)+) => {$(
        impl From<$type> for FluentNumber {
            fn from(whole: $type) -> Self {
                let value = whole as f64;
                match i128::try_from(whole).ok().and_then(Decimal::whole) {
                    Some(number) => Self::exactly(number, value),
                    None => Self::new(value, FluentNumberOptions::default()),
                }
            }
        }
        /// Cut toward zero; a number that is too great gives the greatest.
        impl From<&FluentNumber> for $type {
            fn from(number: &FluentNumber) -> Self {
                match number.decimal() {
                    Some(exact) => {
                        let whole = exact.truncated();
                        let end = if whole < 0 { <$type>::MIN } else { <$type>::MAX };
                        <$type>::try_from(whole).unwrap_or(end)
                    }
                    None => number.value as $type,
                }
            }
        }
        conversions!($type);
    )+};
}

macro_rules! of_float {
    ($($type:ty)+) => {$(
        impl From<$type> for FluentNumber {
            fn from(float: $type) -> Self {
                Self::new(float as f64, FluentNumberOptions::default())
            }
        }
        impl From<&FluentNumber> for $type {
            fn from(number: &FluentNumber) -> Self {
                number.value as $type
            }
        }
        conversions!($type);
    )+};
}

macro_rules! conversions {
    ($type:ty) => {
        impl From<&$type> for FluentNumber {
            fn from(number: &$type) -> Self {
                Self::from(*number)
            }
        }
        impl From<FluentNumber> for $type {
            fn from(number: FluentNumber) -> Self {
                Self::from(&number)
            }
        }
        impl From<$type> for FluentValue<'_> {
            fn from(number: $type) -> Self {
                FluentValue::Number(number.into())
            }
        }
        impl From<&$type> for FluentValue<'_> {
            fn from(number: &$type) -> Self {
                FluentValue::Number(number.into())
            }
        }
    };
}

of_whole!(i8 i16 i32 i64 i128 isize u8 u16 u32 u64 u128 usize);
of_float!(f32 f64);

#[cfg(test)]
mod tests {
    use super::*;

    #[test]
    fn whole_numbers_are_exact() {
        let number = FluentNumber::from(u64::MAX);
        assert_eq!(number.as_string(), "18446744073709551615");
        assert_eq!(u64::from(&number), u64::MAX);
        assert_eq!(i64::from(&number), i64::MAX);
        assert_eq!(i8::from(FluentNumber::from(-1000)), i8::MIN);
        assert_eq!(u8::from(FluentNumber::from(-1000)), 0);
    }

    #[test]
    fn a_float_that_is_set_counts() {
        let mut number = FluentNumber::from(u64::MAX);
        number.value = 2.5;
        assert_eq!(number.as_string(), "2.5");
        assert_eq!(number, FluentNumber::from(2.5));
    }

    #[test]
    fn what_is_no_decimal_shows_as_a_float() {
        assert_eq!(FluentNumber::from(f64::NAN).as_string(), "NaN");
        assert_eq!(
            FluentNumber::from(1u128 << 64).as_string(),
            "18446744073709552000"
        );
        assert!("1e5".parse::<FluentNumber>().is_err());
        assert_eq!(u8::from(FluentNumber::from(f64::INFINITY)), 255);
    }

    #[test]
    fn options_are_merged_by_their_kinds() {
        let mut options = FluentNumberOptions::default();
        let args: FluentArgs = [
            ("currency", FluentValue::from("EUR")),
            ("minimumFractionDigits", FluentValue::from(2)),
            ("style", FluentValue::from(1)),
            ("useGrouping", FluentValue::from("false")),
        ]
        .into_iter()
        .collect();
        options.merge(&args);
        assert_eq!(
            options,
            FluentNumberOptions {
                currency: Some("EUR".to_string()),
                minimum_fraction_digits: Some(2),
                use_grouping: false,
                ..Default::default()
            }
        );
    }
}
