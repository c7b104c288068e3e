//! The options that arguments give, and the built-in function.
use crate::internals::common::{Given, Named, arguments, is_shown, many, values};
use fluent_values::builtins::NUMBER;
use fluent_values::types::{
    FluentNumber, FluentNumberCurrencyDisplayStyle, FluentNumberOptions, FluentNumberStyle,
    FluentNumberType, FluentValue, MergeArgs, NoCustom,
};
use std::alloc::{AllocError, Global};
use std::test::Fail;

/// An argument for each option, of the right kind.
const ALL: &[Named] = &[
    ("type", Given::Text("ordinal")),
    ("style", Given::Text("percent")),
    ("currency", Given::Text("EUR")),
    ("currencyDisplay", Given::Text("name")),
    ("useGrouping", Given::Text("false")),
    ("minimumIntegerDigits", Given::Number(1)),
    ("minimumFractionDigits", Given::Number(2)),
    ("maximumFractionDigits", Given::Number(3)),
    ("minimumSignificantDigits", Given::Number(4)),
    ("maximumSignificantDigits", Given::Number(5)),
];

fn all_options(alloc: Global) -> Result<FluentNumberOptions, AllocError> {
    Ok(FluentNumberOptions {
        number_type: FluentNumberType::Ordinal,
        style: FluentNumberStyle::Percent,
        currency: Some(String::from_str(alloc, "EUR")?),
        currency_display: FluentNumberCurrencyDisplayStyle::Name,
        use_grouping: false,
        minimum_integer_digits: Some(1),
        minimum_fraction_digits: Some(2),
        maximum_fraction_digits: Some(3),
        minimum_significant_digits: Some(4),
        maximum_significant_digits: Some(5),
    })
}

/// Arguments of other kinds, and one of another name.
const OTHERS: &[Named] = &[
    ("type", Given::Number(1)),
    ("style", Given::Number(1)),
    ("currency", Given::Number(1)),
    ("currencyDisplay", Given::Number(1)),
    ("useGrouping", Given::Number(1)),
    ("minimumIntegerDigits", Given::Text("1")),
    ("minimumFractionDigits", Given::Text("1")),
    ("Type", Given::Text("1")),
    ("maximumFractionDigits", Given::Nothing),
];

fn merge(
    alloc: Global,
    options: &mut FluentNumberOptions,
    row: &[Named],
) -> Result<(), AllocError> {
    let args = arguments(alloc, row)?;
    options.merge(alloc, &args)
}

fn are_default(options: &FluentNumberOptions) -> bool {
    *options == FluentNumberOptions::default()
}

fn are_all(alloc: Global, options: &FluentNumberOptions) -> Result<bool, AllocError> {
    Ok(*options == all_options(alloc)?)
}

/// Run with each allocation failing in turn: refused options are as they were.
#[test]
fn each_option_has_its_argument(rt: HostRuntime) -> Result<(), Fail> {
    let mut options = FluentNumberOptions::default();
    merge(rt.alloc(), &mut options, OTHERS)?;
    assert!(rt; are_default(&options));
    if merge(rt.alloc(), &mut options, ALL).is_err() {
        assert!(rt; are_default(&options));
        merge(rt.alloc(), &mut options, ALL)?;
    }
    assert!(rt; are_all(rt.alloc(), &options)?);
    Ok(())
}

/// A number that is asked for with arguments of other names, however many, is itself.
fn is_itself(alloc: Global) -> Result<bool, AllocError> {
    let positional = values(alloc, &[Given::Number(5)])?;
    let args = many(alloc)?;
    is_shown(alloc, &NUMBER(alloc, positional.as_slice(), &args)?, "5")
}

#[test]
fn many_other_names_change_no_number(rt: HostRuntime) -> Result<(), Fail> {
    assert!(rt; is_itself(rt.alloc())?);
    Ok(())
}

// ---- a price

/// Minus twelve in euros, with seven digits.
fn price<'s>(alloc: Global) -> Result<FluentValue<'s, NoCustom>, AllocError> {
    let positional = values(alloc, &[Given::Number(-12)])?;
    let named = [
        ("currency", Given::Text("EUR")),
        ("minimumFractionDigits", Given::Number(7)),
    ];
    NUMBER(alloc, positional.as_slice(), &arguments(alloc, &named)?)
}

fn is_euro(options: &FluentNumberOptions) -> bool {
    match &options.currency {
        Some(currency) => currency.as_str() == "EUR",
        None => false,
    }
}

/// Whether a copy of the price, and one of its options, have its currency and its text.
fn is_price(alloc: Global, price: &FluentNumber) -> Result<bool, AllocError> {
    let copy = price.try_clone(alloc)?;
    let options = price.options.try_clone(alloc)?;
    let text = copy.value.as_text(alloc, options.minimum_fraction_digits)?;
    let is_text = text.as_str() == "-12.0000000"
        && copy.as_string(alloc)?.as_str() == text.as_str();
    Ok(is_text && is_euro(&options) && copy == *price)
}

fn is_copied(alloc: Global) -> Result<bool, AllocError> {
    match price(alloc)? {
        FluentValue::Number(price) => is_price(alloc, &price),
        _ => Ok(false),
    }
}

/// Run with each allocation failing in turn.
#[test]
fn a_price_is_copied(rt: HostRuntime) -> Result<(), Fail> {
    assert!(rt; is_copied(rt.alloc())?);
    Ok(())
}
