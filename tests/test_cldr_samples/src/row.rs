//! A rule of CLDR with its samples.

use fluent_intl::{FluentNumber, MemoizerKind, PluralCategory, PluralOperands, PluralRuleType};
use fluent_plural_rules::RuleTexts;

/// A rule's tags, its kind and category, and its samples.
#[derive(Clone, Copy)]
pub struct Row<'t> {
    pub tags: &'t str,
    pub kind: PluralRuleType,
    pub category: PluralCategory,
    pub samples: &'t str,
}

impl<'t> Row<'t> {
    /// The rule on a line.
    pub fn of(line: &'t str) -> Option<Row<'t>> {
        let (tags, rest) = line.split_once('\t')?;
        let (kind, rest) = rest.split_once('\t')?;
        let (category, samples) = rest.split_once('\t')?;
        Some(Row {
            tags,
            kind: kind_named(kind)?,
            category: category_named(category)?,
            samples,
        })
    }

    /// Whether these rules put a sample into this rule's category.
    pub fn is_selected(&self, rules: &RuleTexts, sample: &str) -> bool {
        match sample.parse::<FluentNumber>() {
            Ok(number) => rules.select(self.kind, &PluralOperands::from(&number)) == self.category,
            Err(_) => false,
        }
    }
}

/// Whether a sample is in compact notation, as `1c6` for a million that is shown as `1M`.
pub fn is_compact(sample: &str) -> bool {
    sample.as_bytes().contains(&b'c')
}

fn kind_named(word: &str) -> Option<PluralRuleType> {
    match word {
        "cardinal" => Some(PluralRuleType::CARDINAL),
        "ordinal" => Some(PluralRuleType::ORDINAL),
        _ => None,
    }
}

fn category_named(word: &str) -> Option<PluralCategory> {
    match word {
        "zero" => Some(PluralCategory::ZERO),
        "one" => Some(PluralCategory::ONE),
        "two" => Some(PluralCategory::TWO),
        "few" => Some(PluralCategory::FEW),
        "many" => Some(PluralCategory::MANY),
        "other" => Some(PluralCategory::OTHER),
        _ => None,
    }
}
