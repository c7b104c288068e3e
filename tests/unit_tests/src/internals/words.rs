//! Words of options.
use crate::check::check;
use fluent_intl::{FluentNumberCurrencyDisplayStyle, FluentNumberStyle, FluentNumberType};
use std::process::Abort;

const TYPES: &[(&str, FluentNumberType)] = &[
    ("ordinal", FluentNumberType::Ordinal),
    ("cardinal", FluentNumberType::Cardinal),
    ("Ordinal", FluentNumberType::Cardinal),
];

const STYLES: &[(&str, FluentNumberStyle)] = &[
    ("currency", FluentNumberStyle::Currency),
    ("percent", FluentNumberStyle::Percent),
    ("decimal", FluentNumberStyle::Decimal),
    ("", FluentNumberStyle::Decimal),
];

const CURRENCY_DISPLAYS: &[(&str, FluentNumberCurrencyDisplayStyle)] = &[
    ("symbol", FluentNumberCurrencyDisplayStyle::Symbol),
    ("code", FluentNumberCurrencyDisplayStyle::Code),
    ("name", FluentNumberCurrencyDisplayStyle::Name),
    ("names", FluentNumberCurrencyDisplayStyle::Symbol),
];

/// That each word stands for the value beside it.
fn stand_for<T: Copy + PartialEq + From<&'static str>>(
    rt: &impl Abort,
    rows: &[(&'static str, T)],
) {
    for (word, value) in rows {
        check(rt, T::from(*word) == *value, word);
    }
}

#[test]
fn words_stand_for_values(rt: HostRuntime) {
    stand_for(&rt, TYPES);
    stand_for(&rt, STYLES);
    stand_for(&rt, CURRENCY_DISPLAYS);
}
