//! A message, an argument and a function of the program's own.

use fluent_bundle::unic_langid::langid;
use fluent_bundle::{fluent_args, FluentBundle, FluentResource, FluentValue};

const SOURCE: &str = "\
hello = Hello, { SHOUT($name) }!
mails =
    { $count ->
        [one] One mail.
       *[other] { $count } mails.
    }
";

fn main() {
    let resource = match FluentResource::try_new(SOURCE.to_string()) {
        Ok(resource) => resource,
        Err((resource, errors)) => {
            errors.iter().for_each(|error| eprintln!("{error}"));
            resource
        }
    };
    let mut bundle = FluentBundle::new(vec![langid!("en")]);
    bundle.set_use_isolating(false);
    bundle.add_resource(resource).expect("its ids are new");
    let shout = bundle.add_function("SHOUT", |positional, _| match positional {
        [FluentValue::String(text)] => text.to_uppercase().into(),
        _ => FluentValue::Error,
    });
    shout.expect("its id is new");
    let args = fluent_args!["name" => "Ada", "count" => 3];
    for id in ["hello", "mails"] {
        let Some(pattern) = bundle.get_message(id).and_then(|message| message.value()) else {
            continue;
        };
        let mut errors = vec![];
        println!(
            "{}",
            bundle.format_pattern(pattern, Some(&args), &mut errors)
        );
        errors.iter().for_each(|error| eprintln!("{error}"));
    }
}
