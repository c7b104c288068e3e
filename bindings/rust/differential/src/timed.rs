//! What a call costs: a message is looked up and formatted again and again.

use crate::names::LanguageIdentifier;
use fluent_bundle::{FluentArgs, FluentBundle, FluentResource, FluentValue};
use std::hint::black_box;
use std::time::Instant;

/// Formats a message, or an attribute as `id.name`, so many times, and writes how long one time took.
pub fn run(words: &[String]) -> Option<()> {
    let [file, name, times, args @ ..] = words else {
        return None;
    };
    let isolate = !args.iter().any(|word| word == "--no-isolate");
    let bundle = bundle(&std::fs::read_to_string(file).ok()?, isolate);
    let args: FluentArgs = args
        .iter()
        .filter_map(|word| word.split_once('='))
        .map(|(name, value)| (name, FluentValue::try_number(value)))
        .collect();
    let times: u32 = times.parse().ok()?;
    let start = Instant::now();
    for _ in 0..times {
        format(&bundle, name, &args)?;
    }
    println!(
        "{:.1} ns",
        start.elapsed().as_nanos() as f64 / f64::from(times)
    );
    Some(())
}

fn bundle(source: &str, isolate: bool) -> FluentBundle<FluentResource> {
    let locale: LanguageIdentifier = "en".parse().expect("a tag");
    let mut bundle = FluentBundle::new(vec![locale]);
    bundle.set_use_isolating(isolate);
    bundle.add_builtins().expect("its id is new");
    let resource =
        FluentResource::try_new(source.to_string()).unwrap_or_else(|(resource, _)| resource);
    bundle.add_resource(resource).unwrap_or_default();
    bundle
}

fn format(bundle: &FluentBundle<FluentResource>, name: &str, args: &FluentArgs) -> Option<()> {
    let (id, attribute) = name.split_once('.').unwrap_or((name, ""));
    let message = bundle.get_message(id)?;
    let pattern = match attribute {
        "" => message.value()?,
        name => message.get_attribute(name)?.value(),
    };
    let mut errors = vec![];
    black_box(bundle.format_pattern(pattern, Some(args), &mut errors));
    Some(())
}
