//! Equality is that of contents, and the first variant is the default.

use crate::check::check;
use crate::internals::numbers::with_minimum;
use fluent_intl::{
    Decimal, FluentNumber, FluentNumberCurrencyDisplayStyle, FluentNumberOptions,
    FluentNumberStyle, FluentNumberType, LanguageIdentifier, PluralCategory, PluralOperands,
    PluralRuleType,
};
use test_contracts::equality::{
    first_variants, same_decimals, same_operands, same_rules, same_words,
};

fn operands_by_content() -> bool {
    let one = PluralOperands::of(&Decimal::from_u64(1), None);
    let shown = PluralOperands::of(&Decimal::from_u64(1), Some(1));
    same_operands(&one, &one)
        && !same_operands(&one, &shown)
        && same_decimals(&one.n, &shown.n)
        && !same_decimals(&one.n, &Decimal::from_u64(2))
}

fn words_by_content() -> bool {
    let written = (
        FluentNumberType::Cardinal,
        FluentNumberStyle::Decimal,
        FluentNumberCurrencyDisplayStyle::Symbol,
    );
    same_words(first_variants(), written)
}

fn rules_by_content() -> bool {
    let first = (PluralRuleType::CARDINAL, PluralCategory::ZERO);
    !same_rules(first, (PluralRuleType::ORDINAL, PluralCategory::ZERO))
        && !same_rules(first, (PluralRuleType::CARDINAL, PluralCategory::MANY))
}

/// A number that is made of a whole one has the options by default, and its minimum counts.
fn options_by_content() -> bool {
    let five = Decimal::from_u64(5);
    let made = FluentNumber::new(five, FluentNumberOptions::default());
    let other = with_minimum(five, Some(1));
    FluentNumber::from(5u8) == made && other != made && other.options != made.options
}

fn is_undetermined(language: LanguageIdentifier) -> bool {
    language.language.is_none()
        && language.script.is_none()
        && language.region.is_none()
        && language.variants.is_empty()
}

#[test]
fn equality_is_that_of_contents(rt: HostRuntime) {
    check(&rt, operands_by_content(), "operands");
    check(&rt, words_by_content(), "words");
    check(&rt, rules_by_content(), "kinds of rules and categories");
    check(&rt, options_by_content(), "options");
    let language = LanguageIdentifier::und(rt.alloc());
    check(&rt, is_undetermined(language), "a language");
}
