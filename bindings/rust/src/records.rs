//! Values and errors as records of bytes: a kind, a name after its length in four bytes, and a value after its own.

use crate::resolver::errors::ReferenceKind;
use crate::resolver::ResolverError;
use crate::types::{
    Decimal, FluentNumber, FluentNumberCurrencyDisplayStyle as Display, FluentNumberOptions,
    FluentNumberStyle, FluentNumberType,
};

/// The kinds of values.
pub(crate) const TEXT: u8 = b't';
pub(crate) const NUMBER: u8 = b'n';
pub(crate) const CUSTOM: u8 = b'c';
pub(crate) const NONE: u8 = b'o';
pub(crate) const ERROR: u8 = b'e';

/// Records, one after the other.
#[derive(Default)]
pub(crate) struct Records(Vec<u8>);

impl Records {
    pub(crate) fn with_capacity(capacity: usize) -> Self {
        Self(Vec::with_capacity(capacity))
    }

    pub(crate) fn bytes(&self) -> &[u8] {
        &self.0
    }

    /// A record. What is too long for its length is an error value.
    pub(crate) fn put(&mut self, kind: u8, name: &[u8], value: &[u8]) {
        match (length(name), length(value)) {
            (Some(_), Some(_)) => self.put_parts(kind, name, value),
            (Some(_), None) => self.put_parts(ERROR, name, &[]),
            (None, _) => {}
        }
    }

    fn put_parts(&mut self, kind: u8, name: &[u8], value: &[u8]) {
        self.0.push(kind);
        for part in [name, value] {
            self.0.extend_from_slice(&length(part).unwrap_or_default());
            self.0.extend_from_slice(part);
        }
    }

    /// A number. A float that is none to the library is its text.
    pub(crate) fn put_number(&mut self, name: &[u8], number: &FluentNumber) {
        let (kind, text) = match number.decimal() {
            Some(decimal) => (NUMBER, number_text(decimal, &number.options)),
            None => (TEXT, number.value.to_string()),
        };
        self.put(kind, name, text.as_bytes());
    }

    /// A value of the program's own: a token by which it is found again, and the text that it is shown as.
    pub(crate) fn put_custom(&mut self, name: &[u8], token: usize, text: &str) {
        self.put(CUSTOM, name, format!("{token}\n{text}").as_bytes());
    }
}

fn length(part: &[u8]) -> Option<[u8; 4]> {
    u32::try_from(part.len()).ok().map(u32::to_le_bytes)
}

/// The text of a number, and behind it its options where they aren't those of the text: an empty one says that the digits of a
/// fraction are no minimum.
fn number_text(decimal: Decimal, options: &FluentNumberOptions) -> String {
    let minimum = options.minimum_fraction_digits;
    let mut text = decimal.text(minimum);
    let places = text.find('.').map(|at| text.len() - at - 1);
    let plain = FluentNumberOptions {
        minimum_fraction_digits: places,
        ..FluentNumberOptions::default()
    };
    if *options != plain {
        let none = (minimum.is_none() && places.is_some()).then(String::new);
        let pairs: Vec<String> = none.into_iter().chain(pairs_of(options)).collect();
        text.push(';');
        text.push_str(&pairs.join(";"));
    }
    text
}

/// The options that are set, with `currency` at the end.
fn pairs_of(options: &FluentNumberOptions) -> Vec<String> {
    let words = [
        ("style", style_word(options.style)),
        ("currencyDisplay", display_word(options.currency_display)),
        (
            "useGrouping",
            if options.use_grouping { "" } else { "false" },
        ),
        ("type", type_word(options.r#type)),
    ];
    let counts = [
        ("minimumIntegerDigits", options.minimum_integer_digits),
        ("minimumFractionDigits", options.minimum_fraction_digits),
        ("maximumFractionDigits", options.maximum_fraction_digits),
        (
            "minimumSignificantDigits",
            options.minimum_significant_digits,
        ),
        (
            "maximumSignificantDigits",
            options.maximum_significant_digits,
        ),
    ];
    let mut pairs = Vec::new();
    for (key, word) in words.iter().filter(|(_, word)| !word.is_empty()) {
        pairs.push(format!("{key}={word}"));
    }
    for (key, count) in counts {
        pairs.extend(count.map(|count| format!("{key}={count}")));
    }
    let currency = options.currency.iter();
    pairs.extend(currency.map(|code| format!("currency={code}")));
    pairs
}

fn style_word(style: FluentNumberStyle) -> &'static str {
    match style {
        FluentNumberStyle::Decimal => "",
        FluentNumberStyle::Currency => "currency",
        FluentNumberStyle::Percent => "percent",
    }
}

fn display_word(display: Display) -> &'static str {
    match display {
        Display::Symbol => "",
        Display::Code => "code",
        Display::Name => "name",
    }
}

fn type_word(kind: FluentNumberType) -> &'static str {
    match kind {
        FluentNumberType::Cardinal => "",
        FluentNumberType::Ordinal => "ordinal",
    }
}

/// The number that a record of a question holds, with the options behind it.
pub(crate) fn read_number(text: &str) -> Option<FluentNumber> {
    let Some((digits, mut rest)) = text.split_once(';') else {
        return text.parse().ok();
    };
    let mut number: FluentNumber = digits.parse().ok()?;
    if rest.is_empty() || rest.starts_with(';') {
        number.options.minimum_fraction_digits = None;
    }
    while !rest.is_empty() {
        let is_last = rest.starts_with("currency=");
        let (pair, after) = match rest.split_once(';') {
            Some(parts) if !is_last => parts,
            _ => (rest, ""),
        };
        if let Some((key, value)) = pair.split_once('=') {
            set_option(&mut number.options, key, value);
        }
        rest = after;
    }
    Some(number)
}

fn set_option(options: &mut FluentNumberOptions, key: &str, value: &str) {
    options.set_word(key, value);
    if let Ok(count) = value.parse() {
        options.set_count(key, count);
    }
}

/// A record: its kind, its name and its value.
#[derive(Clone, Copy, Debug, Eq, PartialEq)]
pub(crate) struct Record<'b> {
    pub(crate) kind: u8,
    pub(crate) name: &'b str,
    pub(crate) value: &'b str,
}

/// Bytes that are read from the front.
pub(crate) struct Reader<'b>(pub(crate) &'b [u8]);

impl<'b> Reader<'b> {
    /// A text after its length.
    pub(crate) fn sized(&mut self) -> Option<&'b str> {
        let length = u32::from_le_bytes(self.0.get(..4)?.try_into().ok()?) as usize;
        let text = self.0.get(4..)?.get(..length)?;
        self.0 = self.0.get(4 + length..)?;
        std::str::from_utf8(text).ok()
    }

    /// The next byte.
    pub(crate) fn byte(&mut self) -> Option<u8> {
        let (first, rest) = self.0.split_first()?;
        self.0 = rest;
        Some(*first)
    }

    /// The next record, `None` where there is no whole one.
    pub(crate) fn record(&mut self) -> Option<Record<'b>> {
        Some(Record {
            kind: self.byte()?,
            name: self.sized()?,
            value: self.sized()?,
        })
    }
}

/// The errors of a text by their records: a letter, an id and the name of an attribute, each of which a zero byte ends.
pub(crate) fn read_errors(records: &[u8]) -> impl Iterator<Item = ResolverError> + '_ {
    let mut rest = records;
    std::iter::from_fn(move || {
        let (kind, after) = rest.split_first()?;
        let mut parts = after.splitn(3, |byte| *byte == 0);
        let (id, name) = (parts.next()?, parts.next()?);
        rest = parts.next()?;
        error(*kind, lossy(id), lossy(name))
    })
}

fn lossy(bytes: &[u8]) -> String {
    String::from_utf8_lossy(bytes).into_owned()
}

fn error(kind: u8, id: String, name: String) -> Option<ResolverError> {
    let attribute = (!name.is_empty()).then_some(name);
    let reference = match kind {
        b'f' => ReferenceKind::Function { id },
        b'm' | b'a' => ReferenceKind::Message { id, attribute },
        b't' | b'b' => ReferenceKind::Term { id, attribute },
        b'v' => ReferenceKind::Variable { id },
        b'n' => return Some(ResolverError::NoValue(id)),
        b'd' => return Some(ResolverError::MissingDefault),
        b'c' => return Some(ResolverError::Cyclic),
        b'p' => return Some(ResolverError::TooManyPlaceables),
        _ => return None,
    };
    Some(ResolverError::Reference(reference))
}

#[cfg(test)]
mod tests {
    use super::*;

    fn text_of(number: FluentNumber) -> String {
        let mut records = Records::default();
        records.put_number(b"n", &number);
        let record = Reader(records.bytes()).record().expect("a record");
        assert_eq!((record.kind, record.name), (NUMBER, "n"));
        record.value.to_string()
    }

    fn with(number: f64, set: impl Fn(&mut FluentNumberOptions)) -> FluentNumber {
        let mut number = FluentNumber::from(number);
        set(&mut number.options);
        number
    }

    #[test]
    fn a_record_is_a_kind_and_two_sized_texts() {
        let mut records = Records::default();
        records.put(TEXT, b"ab", "\u{e9}".as_bytes());
        assert_eq!(records.bytes(), b"t\x02\0\0\0ab\x02\0\0\0\xc3\xa9");
        let mut reader = Reader(records.bytes());
        let record = Record {
            kind: TEXT,
            name: "ab",
            value: "\u{e9}",
        };
        assert_eq!(reader.record(), Some(record));
        assert_eq!(reader.record(), None);
        assert_eq!(Reader(b"t\x02\0\0\0a").record(), None);
    }

    #[test]
    fn numbers_write_the_options_that_their_text_does_not_have() {
        assert_eq!(text_of(FluentNumber::from(5)), "5");
        assert_eq!(text_of("1.50".parse().expect("a number")), "1.50");
        assert_eq!(text_of(FluentNumber::from(1.5)), "1.5;");
        let percent =
            |options: &mut FluentNumberOptions| options.style = FluentNumberStyle::Percent;
        assert_eq!(text_of(with(1.5, percent)), "1.5;;style=percent");
        assert_eq!(text_of(with(15.0, percent)), "15;style=percent");
        assert_eq!(
            text_of(with(5.0, |o| o.minimum_fraction_digits = Some(2))),
            "5.00"
        );
        assert_eq!(
            text_of(with(1.55, |o| o.minimum_fraction_digits = Some(1))),
            "1.55;minimumFractionDigits=1"
        );
        let money = with(1.5, |options| {
            options.style = FluentNumberStyle::Currency;
            options.currency = Some("E;=U".to_string());
            options.minimum_fraction_digits = Some(2);
            options.use_grouping = false;
        });
        assert_eq!(
            text_of(money),
            "1.50;style=currency;useGrouping=false;minimumFractionDigits=2;currency=E;=U"
        );
    }

    #[test]
    fn numbers_are_read_as_written() {
        let all = with(1.5, |options| {
            *options = FluentNumberOptions {
                r#type: FluentNumberType::Ordinal,
                style: FluentNumberStyle::Percent,
                currency: Some("a;b=c".to_string()),
                currency_display: Display::Name,
                use_grouping: false,
                minimum_integer_digits: Some(1),
                minimum_fraction_digits: Some(2),
                maximum_fraction_digits: Some(3),
                minimum_significant_digits: Some(4),
                maximum_significant_digits: Some(5),
            }
        });
        let percent =
            |options: &mut FluentNumberOptions| options.style = FluentNumberStyle::Percent;
        for number in [
            all,
            with(1.5, percent),
            FluentNumber::from(1.5),
            FluentNumber::from(u64::MAX),
        ] {
            assert_eq!(read_number(&text_of(number.clone())), Some(number));
        }
        assert_eq!(read_number("none"), None);
    }

    #[test]
    fn errors_are_read() {
        let errors: Vec<String> = read_errors(b"vx\0\0am\0a\0d\0\0c\0\0")
            .map(|error| error.to_string())
            .collect();
        let texts = [
            "Unknown variable: $x",
            "Unknown attribute: m.a",
            "No default",
        ];
        assert_eq!(errors[..3], texts);
        assert_eq!(errors[3..], ["Cyclical dependency detected"]);
    }
}
