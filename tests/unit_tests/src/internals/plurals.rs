//! Operands and English categories.
use crate::check::{Row, check_rows};
use crate::internals::numbers::{operands, value, with_minimum};
use fluent_intl::{
    EnglishPlurals, FluentNumber, MemoizerKind, PluralCategory, PluralOperands, PluralRuleType,
};
use std::alloc::Global;

/// A text and a minimum, and the operands n, i, v, w, f and t, the first as a text.
type Operands = (
    &'static str,
    Option<usize>,
    &'static str,
    (u64, usize, usize, u64, u64),
);

const OPERANDS: &[Operands] = &[
    ("1", None, "1", (1, 0, 0, 0, 0)),
    ("1", Some(1), "1", (1, 1, 0, 0, 0)),
    ("-1.5", Some(3), "1.5", (1, 3, 1, 500, 5)),
    ("0.05", None, "0.05", (0, 2, 2, 5, 5)),
    ("2", Some(400), "2", (2, 18, 0, 0, 0)),
];

/// Whether a number with a minimum has operands, and so has its value.
fn has_operands(number: &FluentNumber, wanted: &PluralOperands) -> bool {
    let minimum = number.options.minimum_fraction_digits;
    PluralOperands::of(&number.value, minimum) == *wanted && PluralOperands::from(number) == *wanted
}

impl Row for Operands {
    fn holds(&self, _alloc: Global) -> bool {
        let (text, minimum, n, (i, v, w, f, t)) = *self;
        match (value(text), value(n)) {
            (Some(value), Some(n)) => has_operands(
                &with_minimum(value, minimum),
                &PluralOperands { n, i, v, w, f, t },
            ),
            _ => false,
        }
    }
}

/// A number's category as a cardinal and as an ordinal.
type Categories = (&'static str, PluralCategory, PluralCategory);

const CATEGORIES: &[Categories] = &[
    ("1", PluralCategory::ONE, PluralCategory::ONE),
    ("1.0", PluralCategory::OTHER, PluralCategory::ONE),
    ("0", PluralCategory::OTHER, PluralCategory::OTHER),
    ("2", PluralCategory::OTHER, PluralCategory::TWO),
    ("3", PluralCategory::OTHER, PluralCategory::FEW),
    ("4", PluralCategory::OTHER, PluralCategory::OTHER),
    ("11", PluralCategory::OTHER, PluralCategory::OTHER),
    ("12", PluralCategory::OTHER, PluralCategory::OTHER),
    ("13", PluralCategory::OTHER, PluralCategory::OTHER),
    ("21", PluralCategory::OTHER, PluralCategory::ONE),
    ("22", PluralCategory::OTHER, PluralCategory::TWO),
    ("103", PluralCategory::OTHER, PluralCategory::FEW),
    ("111", PluralCategory::OTHER, PluralCategory::OTHER),
    ("1.5", PluralCategory::OTHER, PluralCategory::OTHER),
];

fn is_category(kind: PluralRuleType, operands: &PluralOperands, category: PluralCategory) -> bool {
    EnglishPlurals.select(kind, operands) == category
}

impl Row for Categories {
    fn holds(&self, _alloc: Global) -> bool {
        match operands(self.0) {
            Some(operands) => {
                is_category(PluralRuleType::CARDINAL, &operands, self.1)
                    && is_category(PluralRuleType::ORDINAL, &operands, self.2)
            }
            None => false,
        }
    }
}

#[test]
fn operands_and_english_categories(rt: HostRuntime) {
    check_rows(&rt, rt.alloc(), OPERANDS);
    check_rows(&rt, rt.alloc(), CATEGORIES);
}
