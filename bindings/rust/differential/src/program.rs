//! A random program of calls, and what it saw.

use crate::names::LanguageIdentifier;
use crate::own::{formatters, function, shown, Own, TRANSFORMS};
use crate::random::Random;
use crate::sources::{self, Odd, ATTRIBUTES, FUNCTIONS, MESSAGES, VARIABLES};
use fluent_bundle::bundle::FluentBundle;
use fluent_bundle::memoizer::MemoizerKind;
use fluent_bundle::resolver::Scope;
use fluent_bundle::types::{FluentNumber, FluentNumberOptions};
use fluent_bundle::{FluentArgs, FluentError, FluentResource, FluentValue};
use std::borrow::Borrow;
use std::fmt::Write;
use std::rc::Rc;
use std::sync::Arc;

/// What the program of a seed has on top.
pub fn odd(seed: u64) -> Odd {
    Odd {
        nested_terms: seed % 10 == 3,
        many_placeables: seed % 10 == 7,
        floats: seed % 10 == 5,
    }
}

/// What the program of a seed saw.
pub fn run(seed: u64) -> String {
    let mut random = Random::new(seed);
    let tags = ["en", "en-US", "und", "xx"];
    let locale: LanguageIdentifier = random.pick(&tags).parse().expect("a tag");
    let mut seen = String::new();
    if random.once_in(3) {
        let mut bundle = FluentBundle::new_concurrent(vec![locale]);
        play(&mut random, odd(seed), &mut bundle, Arc::new, &mut seen);
    } else {
        let mut bundle = FluentBundle::new(vec![locale]);
        play(&mut random, odd(seed), &mut bundle, Rc::new, &mut seen);
    }
    seen
}

macro_rules! see {
    ($seen:expr, $($words:tt)*) => {
        writeln!($seen, $($words)*).expect("a string takes all")
    };
}

fn play<R, M>(
    random: &mut Random,
    odd: Odd,
    bundle: &mut FluentBundle<R, M>,
    wrap: fn(FluentResource) -> R,
    seen: &mut String,
) where
    R: Borrow<FluentResource>,
    M: MemoizerKind,
{
    for _ in 0..2 + random.below(8) {
        match random.below(10) {
            0..=3 => add(random, odd, bundle, wrap, seen),
            4 => bundle.set_use_isolating(random.once_in(2)),
            5 => bundle.set_transform(*random.pick(&TRANSFORMS)),
            6 => bundle.set_formatter(*random.pick(&formatters::<M>())),
            7 => see!(seen, "builtins: {:?}", bundle.add_builtins()),
            _ => {
                let name = *random.pick(&FUNCTIONS);
                see!(
                    seen,
                    "{name}: {:?}",
                    bundle.add_function(name, function(name))
                );
            }
        }
        if random.once_in(3) {
            ask_all(random, odd, bundle, seen);
        }
    }
    ask_all(random, odd, bundle, seen);
    compare(random, odd, bundle, seen);
}

fn add<R, M>(
    random: &mut Random,
    odd: Odd,
    bundle: &mut FluentBundle<R, M>,
    wrap: fn(FluentResource) -> R,
    seen: &mut String,
) where
    R: Borrow<FluentResource>,
{
    let source = sources::source(random, odd);
    see!(seen, "{source}");
    let resource = match FluentResource::try_new(source.clone()) {
        Ok(resource) => resource,
        Err((resource, errors)) => {
            see!(seen, "unreadable: {}", errors.len());
            resource
        }
    };
    assert_eq!(resource.source(), source);
    see!(seen, "entries: {}", resource.entries().count());
    if random.once_in(3) {
        bundle.add_resource_overriding(wrap(resource));
    } else {
        see!(seen, "added: {:?}", bundle.add_resource(wrap(resource)));
    }
}

fn ask_all<R, M>(random: &mut Random, odd: Odd, bundle: &FluentBundle<R, M>, seen: &mut String)
where
    R: Borrow<FluentResource>,
    M: MemoizerKind,
{
    let args = arguments(random, odd, seen);
    let args = args.as_ref();
    for id in MESSAGES {
        let Some(message) = bundle.get_message(id) else {
            see!(seen, "{id}: {}", bundle.has_message(id));
            continue;
        };
        see!(seen, "{id}: {}", bundle.has_message(id));
        let value = message.value().into_iter().map(|pattern| ("", pattern));
        let attributes = message.attributes().map(|one| (one.id(), one.value()));
        for (name, pattern) in value.chain(attributes) {
            let mut errors = vec![];
            let text = bundle.format_pattern(pattern, args, &mut errors);
            see!(seen, " {name} {text:?}");
            let mut written = String::new();
            let answer = bundle.write_pattern(&mut written, pattern, args, &mut errors);
            see!(seen, " {name} {written:?} {answer:?}");
            see_errors(&errors, seen);
        }
        let names = ATTRIBUTES.map(|name| message.get_attribute(name).is_some());
        see!(seen, " {names:?}");
    }
}

fn see_errors(errors: &[FluentError], seen: &mut String) {
    for error in errors {
        see!(seen, "  {error}: {error:?}");
    }
}

fn arguments<'a>(random: &mut Random, odd: Odd, seen: &mut String) -> Option<FluentArgs<'a>> {
    if random.once_in(5) {
        return None;
    }
    let mut args = FluentArgs::with_capacity(random.below(4) as usize);
    for _ in 0..random.below(6) {
        args.set(*random.pick(&VARIABLES), value(random, odd));
    }
    for (name, value) in args.iter() {
        see!(seen, "{name} is {}", shown(value));
    }
    Some(args)
}

fn value<'a>(random: &mut Random, odd: Odd) -> FluentValue<'a> {
    match random.below(12) {
        0 => FluentValue::from(*random.pick(&["", "text", "one", "a", "é\n"])),
        1 => FluentValue::from(random.pick(&["few", "other", "5"]).to_string()),
        2 => FluentValue::try_number(*random.pick(&["1", "1.0", "2.50", "-3", "abc", "+4", "22"])),
        3 => (random.below(30) as u8).into(),
        4 => (random.below(5) as i64 - 2).into(),
        5 if odd.floats => (*random.pick(&[0.5f64, 1.5, 2.25, -0.75])).into(),
        5 => (*random.pick(&[1.0f64, 0.0, -7.0])).into(),
        6 => (*random.pick(&[2.0f32, 3.0])).into(),
        7 => number(random, odd).into(),
        8 => FluentValue::Custom(Box::new(Own(random.below(3) as i64))),
        9 => FluentValue::None,
        10 => FluentValue::Error,
        _ => Some(random.below(2_000_000_000_000)).into(),
    }
}

fn number(random: &mut Random, odd: Odd) -> FluentNumber {
    let mut options = FluentNumberOptions::default();
    let mut named = FluentArgs::new();
    for name in [
        "minimumFractionDigits",
        "maximumFractionDigits",
        "minimumIntegerDigits",
    ] {
        if random.once_in(3) {
            named.set(name, random.below(5));
        }
    }
    for (name, word) in [
        ("type", "ordinal"),
        ("style", "currency"),
        ("currency", "US;x=1"),
        ("useGrouping", "false"),
    ] {
        if random.once_in(3) {
            named.set(name, word);
        }
    }
    options.merge(&named);
    let value: f64 = *random.pick(&[1.0, 2.0, 1.5, 0.25, 21.0]);
    if !odd.floats && value.fract() != 0.0 {
        options.minimum_fraction_digits = options.minimum_fraction_digits.or(Some(1));
    }
    FluentNumber::new(value, options)
}

/// Values by themselves: as keys, as texts, as numbers.
fn compare<R, M>(random: &mut Random, odd: Odd, bundle: &FluentBundle<R, M>, seen: &mut String)
where
    R: Borrow<FluentResource>,
    M: MemoizerKind,
{
    let scope = Scope::new(bundle, None, None);
    let (one, two) = (value(random, odd), value(random, odd));
    see!(seen, "{} {}", one.matches(&two, &scope), one == two);
    let mut written = String::new();
    let answer = one.write(&mut written, &scope);
    see!(
        seen,
        "{answer:?} {written:?} {:?} {:?}",
        one.as_string(&scope),
        two.into_owned().into_string(&scope)
    );
    if let FluentValue::Number(number) = one.clone() {
        let numbers = (
            u8::from(&number),
            i16::from(&number),
            usize::from(&number),
            f32::from(&number),
        );
        see!(seen, "{numbers:?} {}", i64::from(number));
    }
}
