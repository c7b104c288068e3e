//! A formatting call: the library asks what only the program can answer, is answered, and is called again with all answers.

use crate::ast::Pattern;
use crate::ffi::Asked;
use crate::library::Given;
use crate::memoizer::MemoizerKind;
use crate::records::{self, read_number, Reader, Record, Records};
use crate::types::{FluentType, FluentValue};
use crate::FluentArgs;
use std::borrow::Cow;
use std::collections::HashMap;

/// A function of the program.
pub(crate) type FluentFunction =
    Box<dyn for<'a> Fn(&[FluentValue<'a>], &FluentArgs) -> FluentValue<'a> + Send + Sync>;

/// What of the program's own a bundle has.
pub(crate) struct Own<M> {
    pub(crate) functions: HashMap<String, FluentFunction>,
    pub(crate) transform: Option<fn(&str) -> Cow<str>>,
    pub(crate) formatter: Option<fn(&FluentValue, &M) -> Option<String>>,
    pub(crate) intls: M,
}

/// A value of the program's own type, of its arguments or of what a function answered.
enum Custom<'a> {
    Lent(&'a dyn FluentType),
    Made(Box<dyn FluentType + Send>),
}

impl Custom<'_> {
    fn get(&self) -> &dyn FluentType {
        match self {
            Self::Lent(value) => *value,
            Self::Made(value) => &**value,
        }
    }
}

/// What has been said in one call.
struct Call<'a, M> {
    own: &'a Own<M>,
    /// The values of own types, each by its token.
    customs: Vec<Custom<'a>>,
    answers: Records,
}

/// The text of a pattern and the records of its errors, by a way to ask the library. `None` where there is no such pattern.
pub(crate) fn format<M: MemoizerKind>(
    own: &Own<M>,
    pattern: &Pattern<&str>,
    args: Option<&FluentArgs>,
    mut ask: impl FnMut(&Asked<'_>) -> Given,
) -> Option<(String, Vec<u8>)> {
    let mut call = Call {
        own,
        customs: Vec::new(),
        answers: Records::default(),
    };
    let arguments = match args {
        Some(args) => call.arguments(args),
        None => Records::default(),
    };
    let mut last = Vec::new();
    loop {
        let given = ask(&Asked {
            id: &pattern.id,
            attribute: pattern.attribute_name(),
            arguments: arguments.bytes(),
            answers: call.answers.bytes(),
        });
        match given {
            Given::Text(text, errors) => return Some((text, errors)),
            // What was answered is not asked again.
            Given::Question(question) if question != last => {
                call.answer(&question);
                last = question;
            }
            _ => return None,
        }
    }
}

impl<'a, M: MemoizerKind> Call<'a, M> {
    /// Arguments as records.
    fn arguments(&mut self, args: &'a FluentArgs<'_>) -> Records {
        // A record has nine bytes beside its texts, which mostly are short.
        let mut records = Records::with_capacity(32 * args.len());
        for (name, value) in args.iter() {
            if let FluentValue::Custom(value) = value {
                self.customs.push(Custom::Lent(&**value));
                self.put_last_custom(&mut records, name.as_bytes());
            } else {
                put_plain(&mut records, name.as_bytes(), value);
            }
        }
        records
    }

    /// A record of the value of an own type that came last.
    fn put_last_custom(&self, records: &mut Records, name: &[u8]) {
        if let Some(value) = self.customs.last() {
            let text = self.own.intls.stringify_value(value.get());
            records.put_custom(name, self.customs.len() - 1, &text);
        }
    }

    /// Puts the answer to a question behind the others.
    fn answer(&mut self, question: &[u8]) {
        let mut reader = Reader(question);
        let answer = match reader.byte() {
            Some(b'f') => self.function(&mut reader),
            Some(b'v') => self.shown(&mut reader),
            Some(b'x') => self.transformed(&mut reader),
            _ => None,
        };
        match answer.unwrap_or(FluentValue::Error) {
            FluentValue::Custom(value) => {
                self.customs.push(Custom::Made(value));
                let mut answers = std::mem::take(&mut self.answers);
                self.put_last_custom(&mut answers, question);
                self.answers = answers;
            }
            value => put_plain(&mut self.answers, question, &value),
        }
    }

    /// What a function answers to its arguments.
    fn function<'q>(&self, reader: &mut Reader<'q>) -> Option<FluentValue<'q>> {
        let function = self.own.functions.get(reader.sized()?)?;
        let (mut positional, mut named) = (Vec::new(), FluentArgs::new());
        while let Some(record) = reader.record() {
            let value = self.value(record);
            if record.name.is_empty() {
                positional.push(value);
            } else {
                named.set(record.name, value);
            }
        }
        Some(function(&positional, &named))
    }

    /// The text that the formatter gives of a value; none says that it is shown as usual.
    fn shown(&self, reader: &mut Reader<'_>) -> Option<FluentValue<'static>> {
        let value = self.value(reader.record()?);
        let text = self
            .own
            .formatter
            .and_then(|formatter| formatter(&value, &self.own.intls));
        Some(text.into())
    }

    /// A text element as the transform gives it.
    fn transformed<'q>(&self, reader: &mut Reader<'q>) -> Option<FluentValue<'q>> {
        let text = reader.sized()?;
        Some(match self.own.transform {
            Some(transform) => transform(text).into(),
            None => text.into(),
        })
    }

    /// The value of a record of a question.
    fn value<'q>(&self, record: Record<'q>) -> FluentValue<'q> {
        let value = match record.kind {
            records::TEXT => Some(record.value.into()),
            records::NUMBER => read_number(record.value).map(FluentValue::Number),
            records::CUSTOM => self.custom(record.value),
            records::NONE => Some(FluentValue::None),
            _ => None,
        };
        value.unwrap_or(FluentValue::Error)
    }

    /// A copy of the value whose token stands before the first line feed.
    fn custom<'q>(&self, value: &str) -> Option<FluentValue<'q>> {
        let (token, _) = value.split_once('\n')?;
        let found = self.customs.get(token.parse::<usize>().ok()?)?;
        Some(FluentValue::Custom(found.get().duplicate()))
    }
}

/// A record of a value that is of no own type.
fn put_plain(records: &mut Records, name: &[u8], value: &FluentValue) {
    match value {
        FluentValue::String(text) => records.put(records::TEXT, name, text.as_bytes()),
        FluentValue::Number(number) => records.put_number(name, number),
        FluentValue::None => records.put(records::NONE, name, &[]),
        FluentValue::Custom(_) | FluentValue::Error => records.put(records::ERROR, name, &[]),
    }
}
