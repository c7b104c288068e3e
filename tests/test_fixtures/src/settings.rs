//! What is set for bundles.
use test_contracts::fixtures::{Answer, Shows};

/// Functions by their words.
const ANSWERS: &[(&str, Answer<'static>)] = &[
    ("none", Answer::Nothing),
    ("error", Answer::Fault),
    ("star", Answer::Star),
    ("one", Answer::One),
    ("first", Answer::First),
    ("second", Answer::Second),
    ("named", Answer::Named),
    ("length", Answer::Length),
];

// ---- settings

/// Plural rules by their name or their texts.
#[derive(Clone, Copy, Drop)]
pub enum Rules<'s> {
    English,
    /// Those of the CLDR for a language tag.
    Tag(&'s str),
    /// A cardinal and an ordinal text.
    Texts(&'s str, &'s str),
}

/// A setting.
#[derive(Clone, Copy, Drop)]
pub enum Setting<'s> {
    Default,
    Isolating(bool),
    Builtins(bool),
    Last(bool),
    Upper(bool),
    Formatter(Option<Shows>),
    Limit(usize),
    English,
    Tag(&'s str),
    Cardinal(&'s str),
    Ordinal(&'s str),
    Function(&'s str, Answer<'s>),
    NoFunctions,
    Cut(bool),
    Replace(bool),
}

const WORDS: &[(&str, Setting<'static>)] = &[
    ("default", Setting::Default),
    ("isolating on", Setting::Isolating(true)),
    ("isolating off", Setting::Isolating(false)),
    ("builtins on", Setting::Builtins(true)),
    ("builtins off", Setting::Builtins(false)),
    ("objects first", Setting::Last(false)),
    ("objects last", Setting::Last(true)),
    ("transform upper", Setting::Upper(true)),
    ("transform none", Setting::Upper(false)),
    ("formatter kinds", Setting::Formatter(Some(Shows::Kinds))),
    (
        "formatter brackets",
        Setting::Formatter(Some(Shows::Brackets)),
    ),
    ("formatter none", Setting::Formatter(None)),
    ("plurals english", Setting::English),
    ("functions none", Setting::NoFunctions),
    ("cut", Setting::Cut(true)),
    ("cut off", Setting::Cut(false)),
    ("replace", Setting::Replace(true)),
    ("replace off", Setting::Replace(false)),
];

/// A function that is written `NAME = KIND`.
fn function_of(words: &str) -> Option<Setting<'_>> {
    let (id, kind) = words.split_once(" = ")?;
    if let Some(text) = kind.strip_prefix('"') {
        return Some(Setting::Function(id, Answer::Text(text.strip_suffix('"')?)));
    }
    for (word, answer) in ANSWERS {
        if *word == kind {
            return Some(Setting::Function(id, *answer));
        }
    }
    None
}

/// A setting whose last word is given.
fn given(words: &str) -> Option<Setting<'_>> {
    let (word, rest) = words.split_once(' ')?;
    match word {
        "limit" => Some(Setting::Limit(rest.parse().ok()?)),
        "plurals" => Some(Setting::Tag(rest)),
        "cardinal" => Some(Setting::Cardinal(rest)),
        "ordinal" => Some(Setting::Ordinal(rest)),
        "function" => function_of(rest),
        _ => None,
    }
}

/// The setting that is written so.
pub fn setting_of(words: &str) -> Option<Setting<'_>> {
    for (word, setting) in WORDS {
        if *word == words {
            return Some(*setting);
        }
    }
    given(words)
}

/// The settings of a bundle.
#[derive(Clone, Copy, Drop)]
pub struct Settings<'s> {
    pub is_isolating: bool,
    pub has_builtins: bool,
    /// Whether functions are added after the resources.
    pub are_last: bool,
    /// Whether letters are made upper case.
    pub is_upper: bool,
    pub formatter: Option<Shows>,
    pub limit: Option<usize>,
    pub rules: Rules<'s>,
    /// The first of the fixture's functions that are added, and the first after them.
    pub functions: (usize, usize),
    pub is_cut: bool,
    pub is_replaced: bool,
}

/// The rules with a cardinal text.
fn with_cardinal<'s>(rules: Rules<'s>, text: &'s str) -> Rules<'s> {
    match rules {
        Rules::Texts(_, ordinal) => Rules::Texts(text, ordinal),
        _ => Rules::Texts(text, ""),
    }
}

/// The rules with an ordinal text.
fn with_ordinal<'s>(rules: Rules<'s>, text: &'s str) -> Rules<'s> {
    match rules {
        Rules::Texts(cardinal, _) => Rules::Texts(cardinal, text),
        _ => Rules::Texts("", text),
    }
}

impl<'s> Settings<'s> {
    /// Those that hold where nothing is set, with no functions after so many.
    pub fn unset(functions: usize) -> Settings<'s> {
        Settings {
            is_isolating: true,
            has_builtins: true,
            are_last: false,
            is_upper: false,
            formatter: None,
            limit: None,
            rules: Rules::English,
            functions: (functions, functions),
            is_cut: false,
            is_replaced: false,
        }
    }

    /// These with one more setting, where the fixture has so many functions by now.
    pub fn with(self, setting: Setting<'s>, functions: usize) -> Settings<'s> {
        let mut after = self;
        match setting {
            Setting::Default => after = Settings::unset(functions),
            Setting::Isolating(is_on) => after.is_isolating = is_on,
            Setting::Builtins(is_on) => after.has_builtins = is_on,
            Setting::Last(are_last) => after.are_last = are_last,
            Setting::Upper(is_on) => after.is_upper = is_on,
            Setting::Formatter(formatter) => after.formatter = formatter,
            Setting::Limit(limit) => after.limit = Some(limit),
            Setting::English => after.rules = Rules::English,
            Setting::Tag(tag) => after.rules = Rules::Tag(tag),
            Setting::Cardinal(text) => after.rules = with_cardinal(self.rules, text),
            Setting::Ordinal(text) => after.rules = with_ordinal(self.rules, text),
            Setting::Function(_, _) => after.functions.1 = functions,
            Setting::NoFunctions => after.functions = (functions, functions),
            Setting::Cut(is_on) => after.is_cut = is_on,
            Setting::Replace(is_on) => after.is_replaced = is_on,
        }
        after
    }
}
