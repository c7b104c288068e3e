//! What the examples of the crate's documentation show.

use fluent_bundle::resolver::Scope;
use fluent_bundle::types::{FluentNumber, FluentNumberOptions};
use fluent_bundle::unic_langid::langid;
use fluent_bundle::{
    ast, concurrent, FluentArgs, FluentBundle, FluentError, FluentMessage, FluentResource,
    FluentValue,
};
use std::rc::Rc;
use std::sync::Arc;

fn read(source: &str) -> FluentResource {
    FluentResource::try_new(source.to_string()).expect("it can be read")
}

fn english<R>() -> FluentBundle<R> {
    FluentBundle::new(vec![langid!("en-US")])
}

fn message<'b, R>(bundle: &'b FluentBundle<R>, id: &str) -> FluentMessage<'b> {
    bundle.get_message(id).expect("the message is there")
}

/// The text of a message without errors.
fn text<R>(bundle: &FluentBundle<R>, id: &str, args: Option<&FluentArgs>) -> String {
    let mut errors = vec![];
    let pattern = message(bundle, id).value().expect("it has a value");
    let text = bundle.format_pattern(pattern, args, &mut errors);
    assert_eq!(errors, []);
    text.into_owned()
}

#[test]
fn a_message_and_one_with_an_argument() {
    let mut bundle = english();
    let added = bundle.add_resource(read(
        "hello-world = Hello, world!\nintro = Welcome, { $name }.\n",
    ));
    added.expect("their ids are new");
    assert_eq!(text(&bundle, "hello-world", None), "Hello, world!");
    let mut args = FluentArgs::new();
    args.set("name", "John");
    assert_eq!(
        text(&bundle, "intro", Some(&args)),
        "Welcome, \u{2068}John\u{2069}."
    );
}

#[test]
fn arguments_of_several_kinds() {
    let mut bundle = FluentBundle::default();
    bundle.set_use_isolating(false);
    let source = "msg-key = Hello, { $user }. You have { $emailCount } messages.";
    bundle.add_resource(read(source)).expect("its id is new");
    let mut args = FluentArgs::with_capacity(2);
    args.set("user", "John");
    args.set("emailCount", 5);
    assert_eq!(
        text(&bundle, "msg-key", Some(&args)),
        "Hello, John. You have 5 messages."
    );
}

#[test]
#[allow(clippy::needless_borrow)]
fn a_pattern_is_written() {
    let mut bundle = english();
    bundle
        .add_resource(read("hello-world = Hello World!"))
        .expect("its id is new");
    let (mut written, mut errors) = (String::new(), vec![]);
    let pattern = message(&bundle, "hello-world")
        .value()
        .expect("it has a value");
    bundle
        .write_pattern(&mut written, pattern, None, &mut errors)
        .expect("a string takes all");
    assert_eq!(written, "Hello World!");
    // A reference to the reference that `value` gives is taken too.
    assert_eq!(
        bundle.format_pattern(&pattern, None, &mut errors),
        "Hello World!"
    );
}

#[test]
fn resources_are_owned_or_shared() {
    let resource = read("hello = Hi!\ngoodbye = Bye!\n");
    let mut borrowed = english();
    borrowed.add_resource(&resource).expect("its ids are new");
    assert!(borrowed.has_message("hello") && !borrowed.has_message("none"));
    let mut counted = english();
    counted
        .add_resource(Rc::new(read("hello = Hi!\n")))
        .expect("its id is new");
    assert_eq!(text(&counted, "hello", None), "Hi!");
    let mut shared = english();
    shared
        .add_resource(Arc::new(read("hello = Hi!\n")))
        .expect("its id is new");
    assert!(shared.get_message("hello").is_some());
}

#[test]
fn a_later_resource_overrides_or_is_reported() {
    let mut bundle = english();
    bundle
        .add_resource(read("hello = Hi!\ngoodbye = Bye!\n"))
        .expect("its ids are new");
    let errors = bundle
        .add_resource(read("hello = Another Hi!\n"))
        .expect_err("it is there");
    assert!(matches!(&errors[..], [FluentError::Overriding { id, .. }] if id == "hello"));
    assert_eq!(text(&bundle, "hello", None), "Hi!");
    bundle.add_resource_overriding(read("hello = Another Hi!\n"));
    assert_eq!(text(&bundle, "hello", None), "Another Hi!");
    assert_eq!(text(&bundle, "goodbye", None), "Bye!");
}

#[test]
fn a_function_of_the_program() {
    let mut bundle = english();
    bundle
        .add_resource(read("length = { STRLEN(\"12345\") }"))
        .expect("its id is new");
    let added = bundle.add_function("STRLEN", |positional, _named| match positional {
        [FluentValue::String(text)] => text.len().into(),
        _ => FluentValue::Error,
    });
    added.expect("its id is new");
    assert_eq!(text(&bundle, "length", None), "5");
    let error = bundle
        .add_function("STRLEN", |_, _| FluentValue::None)
        .expect_err("it is there");
    assert_eq!(
        error.to_string(),
        "Attempt to override an existing function: \"STRLEN\"."
    );
}

#[test]
fn the_builtin_number_chooses_by_rank() {
    let mut bundle = english();
    let source = "rank = { NUMBER($n, type: \"ordinal\") ->
    [1] first
    [2] second
    [3] third
    [one] {$n}st
    [two] {$n}nd
    [few] {$n}rd
    *[other] {$n}th
}";
    bundle.add_resource(read(source)).expect("its id is new");
    bundle.add_builtins().expect("its id is new");
    assert!(bundle.add_builtins().is_err());
    // A key is a number without a type, so `[1]` takes no rank.
    for (n, end) in [(1, "st"), (5, "th"), (12, "th"), (22, "nd")] {
        let mut args = FluentArgs::new();
        args.set("n", n);
        assert_eq!(
            text(&bundle, "rank", Some(&args)),
            format!("\u{2068}{n}\u{2069}{end}")
        );
    }
}

#[test]
fn attributes_of_a_message() {
    let mut bundle = FluentBundle::default();
    let source = "confirm-modal = Are you sure?
    .confirm = Yes
    .cancel = No
    .tooltip = Closing the window will lose all unsaved data.
";
    bundle.add_resource(read(source)).expect("its id is new");
    let message = message(&bundle, "confirm-modal");
    let mut errors = vec![];
    let attributes: Vec<_> = message
        .attributes()
        .map(|attribute| {
            (
                attribute.id(),
                bundle.format_pattern(attribute.value(), None, &mut errors),
            )
        })
        .collect();
    assert_eq!(attributes[0], ("confirm", "Yes".into()));
    assert_eq!(attributes[1], ("cancel", "No".into()));
    assert_eq!(
        attributes[2],
        (
            "tooltip",
            "Closing the window will lose all unsaved data.".into()
        )
    );
    assert!(message.get_attribute("none").is_none());
    assert_eq!(
        message.get_attribute("cancel").map(|one| one.id()),
        Some("cancel")
    );
}

#[test]
fn a_resource_and_its_entries() {
    let resource = read("\nhello-world = Hello, { $user }!\n\n-brand = B\n");
    assert_eq!(resource.entries().count(), 2);
    assert!(
        matches!(resource.entries().next(), Some(ast::Entry::Message(message)) if message.id() == "hello-world")
    );
    assert!(matches!(resource.get_entry(1), Some(ast::Entry::Term(term)) if term.id() == "brand"));
    assert!(resource.get_entry(2).is_none());
    assert!(resource.source().starts_with("\nhello-world = "));
}

#[test]
fn texts_that_are_numbers() {
    let options = FluentNumberOptions {
        minimum_fraction_digits: Some(6),
        ..Default::default()
    };
    let number = FluentValue::Number(FluentNumber::new(3.141569, options));
    assert_eq!(FluentValue::try_number("3.141569"), number);
    let two = FluentNumber::new(2.0, FluentNumberOptions::default());
    assert_eq!(FluentValue::try_number("2"), FluentValue::Number(two));
    assert_eq!(
        FluentValue::try_number("A string"),
        FluentValue::String("A string".into())
    );
}

#[test]
fn values_that_match() {
    let bundle: FluentBundle<FluentResource> = FluentBundle::new(vec![langid!("en")]);
    let scope = Scope::new(&bundle, None, None);
    let number = FluentValue::try_number;
    assert!(number("2").matches(&number("2"), &scope));
    assert!(FluentValue::from("fluent").matches(&FluentValue::from("fluent"), &scope));
    assert!(FluentValue::from("one").matches(&number("1"), &scope));
    assert!(!number("2").matches(&number("3"), &scope));
    assert!(!FluentValue::from("fluent").matches(&FluentValue::from("not fluent"), &scope));
    assert!(!FluentValue::from("two").matches(&number("100"), &scope));
}

#[test]
fn a_concurrent_bundle() {
    let mut bundle: concurrent::FluentBundle<FluentResource> =
        concurrent::FluentBundle::new_concurrent(vec![langid!("en-US")]);
    bundle
        .add_resource(read("hello = Hi!"))
        .expect("its id is new");
    assert!(bundle.has_message("hello"));
}
