//! Random sources of FTL.

use crate::random::Random;

pub const MESSAGES: [&str; 6] = ["m0", "m1", "m2", "m3", "shared", "FREE"];
const TERMS: [&str; 4] = ["t0", "t1", "t2", "shared"];
pub const ATTRIBUTES: [&str; 3] = ["a0", "a1", "a2"];
pub const VARIABLES: [&str; 5] = ["v0", "v1", "v2", "v3", "v4"];
pub const FUNCTIONS: [&str; 10] = [
    "ECHO", "JOIN", "NAMED", "NONE", "ERR", "LENGTH", "OWN", "OPTIONS", "NUMBER", "FREE",
];
const TEXTS: [&str; 7] = ["one", "two words", "é😀", "a, b.", "(", "x", "Übersicht"];
const STRINGS: [&str; 8] = [
    "\"\"",
    "\"text\"",
    "\"\\\"q\\\\\"",
    "\"\\u00e9\"",
    "\"\\U01F602\"",
    "\"{\"",
    "\"one\"",
    "\"a\"",
];
const NUMBERS: [&str; 12] = [
    "0", "1", "2", "3", "-1", "1.0", "1.5", "0.50", "22", "100", "-0.25", "007",
];
const KEYS: [&str; 10] = [
    "one", "two", "few", "other", "a", "text", "1", "1.0", "0.5", "22",
];
const OPTIONS: [&str; 11] = [
    "style: \"percent\"",
    "currency: \"EUR\"",
    "currencyDisplay: \"code\"",
    "useGrouping: \"false\"",
    "type: \"ordinal\"",
    "minimumIntegerDigits: 2",
    "minimumFractionDigits: 3",
    "maximumFractionDigits: 1",
    "minimumSignificantDigits: 1",
    "maximumSignificantDigits: 4",
    "other: \"x\"",
];

/// What a program has on top of what is the same in both crates.
#[derive(Clone, Copy, Default)]
pub struct Odd {
    /// References to terms and messages within terms.
    pub nested_terms: bool,
    /// Messages of more placeables than one call opens.
    pub many_placeables: bool,
    /// Floats with a fraction and without a minimum of fraction digits.
    pub floats: bool,
}

pub struct Writer<'r> {
    random: &'r mut Random,
    odd: Odd,
    in_term: bool,
    text: String,
}

/// A source of some entries.
pub fn source(random: &mut Random, odd: Odd) -> String {
    let mut writer = Writer {
        random,
        odd,
        in_term: false,
        text: String::new(),
    };
    for _ in 0..1 + writer.random.below(6) {
        writer.entry();
    }
    writer.text
}

impl Writer<'_> {
    fn put(&mut self, text: &str) {
        self.text.push_str(text);
    }

    fn put_one_of(&mut self, list: &[&str]) {
        let text = *self.random.pick(list);
        self.put(text);
    }

    fn entry(&mut self) {
        match self.random.below(12) {
            0 => self.put("what can't be read\n"),
            1 => self.put("# a comment\n\n"),
            2..=4 => self.term(),
            5 if self.odd.many_placeables => self.wide_message(),
            _ => self.message(),
        }
    }

    fn wide_message(&mut self) {
        self.put_one_of(&MESSAGES);
        self.put(" = ");
        for _ in 0..60 + self.random.below(60) {
            self.put("{ \"w\" }");
        }
        self.put("{ $v0 }\n");
    }

    fn message(&mut self) {
        self.in_term = false;
        self.put_one_of(&MESSAGES);
        self.put(" =");
        let has_value = !self.random.once_in(6);
        if has_value {
            self.put(" ");
            self.pattern(3);
        }
        self.put("\n");
        self.attributes(!has_value);
    }

    fn term(&mut self) {
        self.in_term = true;
        self.put("-");
        self.put_one_of(&TERMS);
        self.put(" = ");
        self.pattern(2);
        self.put("\n");
        self.attributes(false);
    }

    /// Each name at most once, and one at least where one must be there.
    fn attributes(&mut self, needs_one: bool) {
        for (index, name) in ATTRIBUTES.iter().enumerate() {
            if self.random.once_in(4) || (needs_one && index == 0) {
                self.put("    .");
                self.put(name);
                self.put(" = ");
                self.pattern(2);
                self.put("\n");
            }
        }
    }

    fn pattern(&mut self, depth: u64) {
        let count = 1 + self.random.below(4);
        for index in 0..count {
            if depth > 0 && self.random.below(5) < 3 {
                self.placeable(depth);
            } else {
                self.put_one_of(&TEXTS);
                if index + 1 < count {
                    self.put(" ");
                }
            }
        }
    }

    fn placeable(&mut self, depth: u64) {
        self.put("{ ");
        if depth > 1 && self.random.once_in(4) {
            self.select(depth - 1);
        } else {
            self.inline(depth - 1);
        }
        self.put(" }");
    }

    fn select(&mut self, depth: u64) {
        self.selector(depth);
        self.put(" ->\n");
        let count = 1 + self.random.below(4);
        let default = self.random.below(count);
        for index in 0..count {
            self.put(if index == default { "   *[" } else { "    [" });
            self.put_one_of(&KEYS);
            self.put("] ");
            self.pattern(depth);
            self.put("\n");
        }
        self.put("   ");
    }

    fn selector(&mut self, depth: u64) {
        match self.random.below(8) {
            0 => self.put_one_of(&STRINGS),
            1 => self.put_one_of(&NUMBERS),
            2 => self.function(depth),
            3 if self.may_refer() => {
                self.put("-");
                self.put_one_of(&TERMS);
                self.put(".");
                self.put_one_of(&ATTRIBUTES);
            }
            _ => self.variable(),
        }
    }

    fn may_refer(&self) -> bool {
        !self.in_term || self.odd.nested_terms
    }

    fn variable(&mut self) {
        self.put("$");
        self.put_one_of(&VARIABLES);
    }

    fn inline(&mut self, depth: u64) {
        match self.random.below(12) {
            0 => self.put_one_of(&STRINGS),
            1 => self.put_one_of(&NUMBERS),
            2 | 3 => self.function(depth),
            4 | 5 if self.may_refer() => self.message_reference(),
            6 | 7 if self.may_refer() => self.term_reference(depth),
            8 if depth > 0 => self.placeable(depth),
            _ => self.variable(),
        }
    }

    fn message_reference(&mut self) {
        self.put_one_of(&MESSAGES[..5]);
        if self.random.once_in(4) {
            self.put(".");
            self.put_one_of(&ATTRIBUTES);
        }
    }

    fn term_reference(&mut self, depth: u64) {
        self.put("-");
        self.put_one_of(&TERMS);
        if self.random.once_in(2) {
            self.put("(");
            if self.random.once_in(3) {
                self.inline(depth.min(1));
                self.put(", ");
            }
            for name in VARIABLES {
                if self.random.once_in(3) {
                    self.put(name);
                    self.put(": ");
                    self.literal();
                    self.put(", ");
                }
            }
            self.put(")");
        }
    }

    fn literal(&mut self) {
        if self.random.once_in(2) {
            self.put_one_of(&STRINGS);
        } else {
            self.put_one_of(&NUMBERS);
        }
    }

    fn function(&mut self, depth: u64) {
        self.put_one_of(&FUNCTIONS);
        self.put("(");
        for _ in 0..self.random.below(3) {
            self.inline(depth.min(1));
            self.put(", ");
        }
        for option in OPTIONS {
            if self.random.once_in(9) {
                self.put(option);
                self.put(", ");
            }
        }
        self.put(")");
    }
}
