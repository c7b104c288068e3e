//! Functions, transforms, formatters and values of the program's own.

use fluent_bundle::intl_memoizer::{concurrent, IntlLangMemoizer, Memoizable};
use fluent_bundle::types::FluentType;
use fluent_bundle::unic_langid::LanguageIdentifier;
use fluent_bundle::{fluent_args, FluentArgs, FluentBundle, FluentResource, FluentValue};
use std::borrow::Cow;
use std::sync::OnceLock;

fn read(source: &str) -> FluentResource {
    FluentResource::try_new(source.to_string()).expect("it can be read")
}

fn bundle_of(source: &str) -> FluentBundle<FluentResource> {
    let mut bundle = FluentBundle::default();
    bundle.set_use_isolating(false);
    bundle.add_resource(read(source)).expect("its ids are new");
    bundle
}

/// The text of a message and its errors.
fn shown(
    bundle: &FluentBundle<FluentResource>,
    id: &str,
    args: Option<&FluentArgs>,
) -> (String, Vec<String>) {
    let mut errors = vec![];
    let message = bundle.get_message(id).expect("it is there");
    let text = bundle
        .format_pattern(message.value().expect("a value"), args, &mut errors)
        .into_owned();
    (text, errors.iter().map(ToString::to_string).collect())
}

fn text(bundle: &FluentBundle<FluentResource>, id: &str, args: Option<&FluentArgs>) -> String {
    let (text, errors) = shown(bundle, id, args);
    assert_eq!(errors, [""; 0]);
    text
}

/// A date, which is shown by a format that the bundle keeps.
#[derive(Clone, Debug, PartialEq)]
struct Date(u8, u8);

struct DateFormat {
    point: &'static str,
}

impl Memoizable for DateFormat {
    type Args = ();
    type Error = ();

    fn construct(lang: LanguageIdentifier, (): ()) -> Result<Self, ()> {
        match lang.language.as_str() {
            "de" => Ok(Self { point: "." }),
            _ => Ok(Self { point: "/" }),
        }
    }
}

impl FluentType for Date {
    fn duplicate(&self) -> Box<dyn FluentType + Send> {
        Box::new(self.clone())
    }

    fn as_string(&self, intls: &IntlLangMemoizer) -> Cow<'static, str> {
        let text = intls.with_try_get::<DateFormat, _, _>((), |format| {
            // A formatter may ask for another while it is asked.
            let again = intls.with_try_get::<DateFormat, _, _>((), |format| format.point);
            assert_eq!(again, Ok(format.point));
            format!("{}{}{}", self.0, format.point, self.1)
        });
        text.unwrap_or_default().into()
    }

    fn as_string_threadsafe(&self, intls: &concurrent::IntlLangMemoizer) -> Cow<'static, str> {
        let text = intls.with_try_get::<DateFormat, _, _>((), |format| {
            format!("{}{}{}", self.0, format.point, self.1)
        });
        text.unwrap_or_default().into()
    }
}

fn date(day: u8, month: u8) -> FluentValue<'static> {
    FluentValue::Custom(Box::new(Date(day, month)))
}

#[test]
fn values_of_own_types_go_through_functions_as_they_are() {
    let mut bundle = bundle_of("a = { $d } { NEXT(NEXT($d)) } { -t(d: 1) }\n-t = { $d }\n");
    bundle
        .add_function("NEXT", |positional, _| match positional.first() {
            Some(FluentValue::Custom(value)) => match value.as_any().downcast_ref::<Date>() {
                Some(one) => date(one.0 + 1, one.1),
                None => FluentValue::Error,
            },
            _ => FluentValue::Error,
        })
        .expect("its id is new");
    let args = fluent_args!["d" => date(1, 2)];
    assert_eq!(text(&bundle, "a", Some(&args)), "1/2 3/2 1");
}

#[test]
fn formatters_are_of_the_first_language() {
    let mut bundle = FluentBundle::new(vec![
        "de-AT".parse().expect("a tag"),
        "en".parse().expect("a tag"),
    ]);
    bundle
        .add_resource(read("a = { $d }"))
        .expect("its id is new");
    assert_eq!(
        text(&bundle, "a", Some(&fluent_args!["d" => date(1, 2)])),
        "1.2"
    );
}

#[test]
fn a_value_of_an_own_type_takes_the_default() {
    let bundle = bundle_of("a = { $d ->\n [1] one\n *[other] default\n }\n");
    assert_eq!(
        text(&bundle, "a", Some(&fluent_args!["d" => date(1, 2)])),
        "default"
    );
}

#[test]
fn named_arguments_reach_a_function() {
    let mut bundle = bundle_of("a = { F(\"x\", 1.50, $n, b: 2, a: \"y\") }");
    bundle
        .add_function("F", |positional, named| {
            let positional = positional
                .iter()
                .map(|value| format!("{value:?}"))
                .collect::<Vec<_>>();
            let names = named.iter().map(|(name, _)| name).collect::<Vec<_>>();
            assert_eq!(named.get("b"), Some(&FluentValue::from(2)));
            format!("{} {names:?} {}", positional.len(), positional[0]).into()
        })
        .expect("its id is new");
    let args = fluent_args!["n" => FluentValue::None];
    assert_eq!(
        text(&bundle, "a", Some(&args)),
        "3 [\"a\", \"b\"] String(\"x\")"
    );
}

#[test]
fn answers_without_a_text() {
    let mut bundle = bundle_of("a = [{ NONE() }]\nb = [{ FAILS() }]\nc = [{ UNKNOWN() }]\n");
    bundle
        .add_function("NONE", |_, _| FluentValue::None)
        .expect("its id is new");
    bundle
        .add_function("FAILS", |_, _| FluentValue::Error)
        .expect("its id is new");
    assert_eq!(text(&bundle, "a", None), "[]");
    assert_eq!(text(&bundle, "b", None), "[FAILS()]");
    let unknown = vec!["Resolver error: Unknown function: UNKNOWN()".to_string()];
    assert_eq!(
        shown(&bundle, "c", None),
        ("[{UNKNOWN()}]".to_string(), unknown)
    );
}

#[test]
fn a_function_may_format_by_its_bundle() {
    static BUNDLE: OnceLock<fluent_bundle::concurrent::FluentBundle<FluentResource>> =
        OnceLock::new();
    fn inner(id: &str) -> String {
        let bundle = BUNDLE.get().expect("it is made");
        let message = bundle.get_message(id).expect("it is there");
        let mut errors = vec![];
        bundle
            .format_pattern(message.value().expect("a value"), None, &mut errors)
            .into_owned()
    }
    let mut bundle = fluent_bundle::concurrent::FluentBundle::new_concurrent(vec![]);
    bundle
        .add_resource(read(
            "a = a { SHOW(\"b\") }\nb = b { SHOW(\"c\") }\nc = c\n",
        ))
        .expect("its ids are new");
    bundle
        .add_function("SHOW", |positional, _| match positional {
            [FluentValue::String(id)] => inner(id).into(),
            _ => FluentValue::Error,
        })
        .expect("its id is new");
    assert!(BUNDLE.set(bundle).is_ok());
    assert_eq!(inner("a"), "a \u{2068}b \u{2068}c\u{2069}\u{2069}");
}

#[test]
fn a_transform_changes_text_elements_alone() {
    let mut bundle = bundle_of("a = ab { $x } { \"cd\" } ef\n");
    bundle.set_transform(Some(|text| text.to_uppercase().into()));
    assert_eq!(
        text(&bundle, "a", Some(&fluent_args!["x" => "x"])),
        "AB x cd EF"
    );
    bundle.set_transform(None);
    assert_eq!(
        text(&bundle, "a", Some(&fluent_args!["x" => "x"])),
        "ab x cd ef"
    );
}

#[test]
fn a_formatter_shows_values_and_not_selectors() {
    let mut bundle = bundle_of("a = { $n ->\n [1] one { $n } { $m }\n *[other] other\n }\n");
    bundle.set_formatter(Some(|value, _| match value {
        FluentValue::Number(number) => Some(format!("<{}>", number.as_string())),
        _ => None,
    }));
    let args = fluent_args!["n" => 1, "m" => "m"];
    assert_eq!(text(&bundle, "a", Some(&args)), "one <1> m");
}

#[test]
fn the_whole_text_is_a_value_to_a_formatter_when_it_is_given_and_not_when_it_is_written() {
    let mut bundle = bundle_of("a = b { $x }\n");
    bundle.set_formatter(Some(|value, _| match value {
        FluentValue::String(text) => Some(format!("[{text}]")),
        _ => None,
    }));
    let args = fluent_args!["x" => "x"];
    assert_eq!(text(&bundle, "a", Some(&args)), "[b [x]]");
    let (mut written, mut errors) = (String::new(), vec![]);
    let pattern = bundle
        .get_message("a")
        .and_then(|message| message.value())
        .expect("a value");
    assert_eq!(
        bundle.write_pattern(&mut written, pattern, Some(&args), &mut errors),
        Ok(())
    );
    assert_eq!((written.as_str(), errors), ("b [x]", vec![]));
}

#[test]
fn settings_stay_when_isolation_changes() {
    let mut bundle = FluentBundle::default();
    bundle
        .add_function("F", |_, _| "f".into())
        .expect("its id is new");
    bundle.add_builtins().expect("its id is new");
    bundle
        .add_resource(read("a = a { F() } { NUMBER($n) }\nb = b\n"))
        .expect("its ids are new");
    bundle.add_resource_overriding(read("b = c { $n }\n"));
    bundle.set_transform(Some(|text| text.to_uppercase().into()));
    let args = fluent_args!["n" => 1];
    assert_eq!(
        text(&bundle, "a", Some(&args)),
        "A \u{2068}f\u{2069} \u{2068}1\u{2069}"
    );
    bundle.set_use_isolating(false);
    assert_eq!(text(&bundle, "a", Some(&args)), "A f 1");
    assert_eq!(text(&bundle, "b", Some(&args)), "C 1");
    assert!(bundle.add_function("F", |_, _| FluentValue::None).is_err());
}
