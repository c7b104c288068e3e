//! Plural rules from text.
use crate::check::{Row, check, check_rows, is_text};
use crate::internals::numbers::operands;
use fluent_intl::{MemoizerKind, PluralCategory, PluralOperands, PluralRuleType};
use fluent_plural_rules::{RuleFault, RuleTexts};
use std::alloc::{AllocError, Global};

/// Rules in four lines, much like those of Polish.
const FOUR: &str = "one: i = 1 and v = 0 @integer 1
few: v = 0 and i % 10 = 2..4 and i % 100 != 12..14
many: v = 0 and i != 1 and i % 10 = 0..1 or v = 0 and i % 10 = 5..9 or v = 0 and i % 100 = 12..14
other: @decimal 0.0";

/// A text of rules, a number and its category.
type Category = (&'static str, &'static str, PluralCategory);

const CATEGORIES: &[Category] = &[
    (FOUR, "1", PluralCategory::ONE),
    (FOUR, "22", PluralCategory::FEW),
    (FOUR, "12", PluralCategory::MANY),
    (FOUR, "5", PluralCategory::MANY),
    (FOUR, "21", PluralCategory::MANY),
    (FOUR, "1.5", PluralCategory::OTHER),
    (FOUR, "1.0", PluralCategory::OTHER),
    ("one: n = 1,3..5; other:", "4", PluralCategory::ONE),
    ("one: n = 1,3..5; other:", "3.5", PluralCategory::OTHER),
    ("one: n = 1,3..5; other:", "1.0", PluralCategory::ONE),
    ("one: n = 1,3..5; other:", "6", PluralCategory::OTHER),
    ("zero: n != 1", "1.5", PluralCategory::ZERO),
    ("zero: n != 1", "-1", PluralCategory::OTHER),
    ("two: n % 2 != 0; one: n = 0..9", "3", PluralCategory::TWO),
    ("two: n % 2 != 0; one: n = 0..9", "4", PluralCategory::ONE),
    ("two: t = 5 and f = 50", "0.50", PluralCategory::TWO),
    ("two: v = 2 and w = 1", "0.50", PluralCategory::TWO),
    ("two: c = 0 and e = 0", "7", PluralCategory::TWO),
    ("two: e = 1 or n = 9..8", "9", PluralCategory::OTHER),
    ("", "1", PluralCategory::OTHER),
];

/// The rules of two texts. Where an allocation fails it is asked again.
fn read(alloc: Global, cardinal: &str, ordinal: &str) -> Result<RuleTexts, RuleFault> {
    match RuleTexts::parse(alloc, cardinal, ordinal) {
        Err(RuleFault::Memory) => RuleTexts::parse(alloc, cardinal, ordinal),
        found => found,
    }
}

fn selects(
    rules: &Result<RuleTexts, RuleFault>,
    kind: PluralRuleType,
    number: &PluralOperands,
    category: PluralCategory,
) -> bool {
    match rules {
        Ok(rules) => rules.select(kind, number) == category,
        Err(_) => false,
    }
}

/// Whether a number has a category under a text of rules, which is both texts of a language in turn.
fn has_category(
    alloc: Global,
    rules: &str,
    number: &PluralOperands,
    category: PluralCategory,
) -> bool {
    let cardinal = read(alloc, rules, "");
    let ordinal = read(alloc, "", rules);
    selects(&cardinal, PluralRuleType::CARDINAL, number, category)
        && selects(&ordinal, PluralRuleType::ORDINAL, number, category)
}

impl Row for Category {
    fn holds(&self, alloc: Global) -> bool {
        match operands(self.1) {
            Some(number) => has_category(alloc, self.0, &number, self.2),
            None => false,
        }
    }
}

/// The two texts, and the fault that reading them has.
type Fault = (&'static str, &'static str, PluralRuleType, usize);

const FAULTS: &[Fault] = &[
    ("one: i is 1", "", PluralRuleType::CARDINAL, 0),
    ("one: n % 0 = 1", "", PluralRuleType::CARDINAL, 0),
    ("", " ;two: n %", PluralRuleType::ORDINAL, 2),
    ("other:\n  one: n\ntwo", "two", PluralRuleType::CARDINAL, 9),
    (
        "one: n = 18446744073709551616",
        "",
        PluralRuleType::CARDINAL,
        0,
    ),
    (
        "one: n = 18446744073709551615",
        "one:",
        PluralRuleType::ORDINAL,
        0,
    ),
];

fn has_fault(rules: &Result<RuleTexts, RuleFault>, wanted: RuleFault) -> bool {
    match rules {
        Ok(_) => false,
        Err(fault) => *fault == wanted,
    }
}

impl Row for Fault {
    fn holds(&self, alloc: Global) -> bool {
        has_fault(
            &read(alloc, self.0, self.1),
            RuleFault::Syntax(self.2, self.3),
        )
    }
}

/// A fault, and what it says.
type FaultText = (RuleFault, &'static str);

const TEXTS: &[FaultText] = &[
    (
        RuleFault::Syntax(PluralRuleType::CARDINAL, 0),
        "unreadable cardinal rule at byte 0",
    ),
    (
        RuleFault::Syntax(PluralRuleType::ORDINAL, 12),
        "unreadable ordinal rule at byte 12",
    ),
    (RuleFault::Memory, "out of memory"),
];

/// What a fault says. Where an allocation fails it is asked again.
fn text_of(alloc: Global, fault: RuleFault) -> Result<String, AllocError> {
    match fault.to_string(alloc) {
        Err(AllocError) => fault.to_string(alloc),
        text => text,
    }
}

impl Row for FaultText {
    fn holds(&self, alloc: Global) -> bool {
        is_text(&text_of(alloc, self.0), self.1)
    }
}

/// Run with each allocation failing in turn.
#[test]
fn rules_select_categories(rt: HostRuntime) {
    check_rows(&rt, rt.alloc(), CATEGORIES);
}

/// Run with each allocation failing in turn.
#[test]
fn rules_that_cannot_be_read_are_named(rt: HostRuntime) {
    check_rows(&rt, rt.alloc(), FAULTS);
    check_rows(&rt, rt.alloc(), TEXTS);
}

/// A language of the Unicode CLDR, a number and its category.
type Known = (&'static str, PluralRuleType, &'static str, PluralCategory);

const KNOWN: &[Known] = &[
    ("en", PluralRuleType::CARDINAL, "1", PluralCategory::ONE),
    ("en", PluralRuleType::CARDINAL, "1.0", PluralCategory::OTHER),
    ("en-GB", PluralRuleType::ORDINAL, "22", PluralCategory::TWO),
    (
        "en-GB",
        PluralRuleType::ORDINAL,
        "12",
        PluralCategory::OTHER,
    ),
    ("pl", PluralRuleType::CARDINAL, "22", PluralCategory::FEW),
    ("pl", PluralRuleType::CARDINAL, "12", PluralCategory::MANY),
    ("ar", PluralRuleType::CARDINAL, "0", PluralCategory::ZERO),
    ("ar", PluralRuleType::CARDINAL, "103", PluralCategory::FEW),
    ("ar", PluralRuleType::CARDINAL, "111", PluralCategory::MANY),
    (
        "pt",
        PluralRuleType::CARDINAL,
        "2000000",
        PluralCategory::MANY,
    ),
    ("pt", PluralRuleType::CARDINAL, "0", PluralCategory::ONE),
    (
        "pt-PT",
        PluralRuleType::CARDINAL,
        "0",
        PluralCategory::OTHER,
    ),
];

impl Row for Known {
    fn holds(&self, _alloc: Global) -> bool {
        match (RuleTexts::of_language(self.0), operands(self.2)) {
            (Some(rules), Some(number)) => rules.select(self.1, &number) == self.3,
            _ => false,
        }
    }
}

#[test]
fn languages_have_rules_that_are_read(rt: HostRuntime) {
    check_rows(&rt, rt.alloc(), KNOWN);
    check(
        &rt,
        RuleTexts::of_language("xx").is_none(),
        "no such language",
    );
}
