//! Long texts, faults, languages and threads.

use fluent_bundle::resolver::errors::ReferenceKind;
use fluent_bundle::resolver::ResolverError;
use fluent_bundle::types::FluentNumber;
use fluent_bundle::unic_langid::langid;
use fluent_bundle::{
    ast, concurrent, fluent_args, FluentArgs, FluentBundle, FluentError, FluentResource,
    FluentValue,
};
use std::fmt;
use std::thread;

fn read(source: &str) -> FluentResource {
    FluentResource::try_new(source.to_string()).expect("it can be read")
}

fn bundle_of(source: &str) -> FluentBundle<FluentResource> {
    let mut bundle = FluentBundle::default();
    bundle.add_resource(read(source)).expect("its ids are new");
    bundle
}

fn shown(
    bundle: &FluentBundle<FluentResource>,
    id: &str,
    args: Option<&FluentArgs>,
) -> (String, Vec<FluentError>) {
    let mut errors = vec![];
    let message = bundle.get_message(id).expect("it is there");
    let text = bundle.format_pattern(message.value().expect("a value"), args, &mut errors);
    (text.into_owned(), errors)
}

#[test]
fn texts_errors_and_questions_of_each_length() {
    let mut bundle = bundle_of("a = { $x }\nb = { F($x) }\n");
    bundle
        .add_function("F", |positional, _| positional[0].clone())
        .expect("its id is new");
    for length in [0, 1, 255, 256, 511, 512, 513, 1024, 100_000] {
        let text = "é".repeat(length);
        let args = fluent_args!["x" => text.as_str()];
        assert_eq!(shown(&bundle, "a", Some(&args)), (text.clone(), vec![]));
        assert_eq!(shown(&bundle, "b", Some(&args)), (text, vec![]));
    }
    let names: String = (0..90).map(|n| format!("{{ $variable-{n} }}")).collect();
    let bundle = bundle_of(&format!("a = {names}\n"));
    let (_, errors) = shown(&bundle, "a", None);
    assert_eq!(errors.len(), 90);
    assert_eq!(
        errors[89].to_string(),
        "Resolver error: Unknown variable: $variable-89"
    );
}

#[test]
fn each_kind_of_error() {
    let source = "a = { b }{ c.x }{ c }{ -t }{ -u.x ->\n *[other] o\n }{ $v }{ F() }{ a }\nc =\n    .y = y\n-u = u\n";
    let (text, errors) = shown(&bundle_of(source), "a", None);
    assert_eq!(
        text,
        "{b}{c.x}{c}{-t}\u{2068}o\u{2069}\u{2068}{$v}\u{2069}\u{2068}{F()}\u{2069}{a}"
    );
    let of = |id: &str| id.to_string();
    let expected = [
        ResolverError::Reference(ReferenceKind::Message {
            id: of("b"),
            attribute: None,
        }),
        ResolverError::Reference(ReferenceKind::Message {
            id: of("c"),
            attribute: Some(of("x")),
        }),
        ResolverError::NoValue(of("c")),
        ResolverError::Reference(ReferenceKind::Term {
            id: of("t"),
            attribute: None,
        }),
        ResolverError::Reference(ReferenceKind::Term {
            id: of("u"),
            attribute: Some(of("x")),
        }),
        ResolverError::Reference(ReferenceKind::Variable { id: of("v") }),
        ResolverError::Reference(ReferenceKind::Function { id: of("F") }),
        ResolverError::Cyclic,
    ];
    assert_eq!(errors, expected.map(FluentError::from));
    let wide = format!("a = {}\n", "{ \"x\" }".repeat(101));
    let (text, errors) = shown(&bundle_of(&wide), "a", None);
    assert_eq!(text, "x".repeat(100));
    assert_eq!(errors, [ResolverError::TooManyPlaceables.into()]);
}

#[test]
fn what_can_not_be_read_is_reported_by_its_bytes() {
    let source = "a = 1\nb = {\nc = 3\n";
    let (resource, errors) = FluentResource::try_new(source.to_string()).expect_err("a Junk");
    assert_eq!(errors.len(), 1);
    assert_eq!(&source[errors[0].pos.clone()], "b = {\n");
    assert_eq!(
        FluentError::from(errors[0].clone()).to_string(),
        "Parser error: unreadable entry at bytes 6..12"
    );
    let entries: Vec<_> = resource.entries().collect();
    assert!(matches!(
        entries[..],
        [
            ast::Entry::Message(_),
            ast::Entry::Junk { .. },
            ast::Entry::Message(_)
        ]
    ));
}

#[test]
fn the_last_entry_of_an_id_overrides() {
    let source = "-a = term\na = first\n    .x = 1\na = last\n    .y = 2\n";
    let mut bundle = FluentBundle::default();
    assert_eq!(
        bundle
            .add_resource(read(source))
            .expect_err("a and a")
            .len(),
        2
    );
    assert!(!bundle.has_message("a"));
    bundle.add_resource_overriding(read(source));
    assert_eq!(shown(&bundle, "a", None).0, "last");
    let names: Vec<_> = bundle
        .get_message("a")
        .expect("it is there")
        .attributes()
        .map(|one| one.id())
        .collect();
    assert_eq!(names, ["y"]);
    bundle.add_resource_overriding(read("-a = term\n"));
    assert!(bundle.get_message("a").is_none());
}

#[test]
fn a_pattern_means_what_its_name_does_in_the_bundle_that_formats() {
    let (one, two, three) = (
        bundle_of("a = one\n"),
        bundle_of("a = two\n"),
        bundle_of("b = b\n"),
    );
    let pattern = one
        .get_message("a")
        .and_then(|message| message.value())
        .expect("a value");
    let mut errors = vec![];
    assert_eq!(two.format_pattern(pattern, None, &mut errors), "two");
    assert_eq!(three.format_pattern(pattern, None, &mut errors), "{a}");
    let lost = ReferenceKind::Message {
        id: "a".to_string(),
        attribute: None,
    };
    assert_eq!(errors, [ResolverError::Reference(lost).into()]);
}

struct Full;

impl fmt::Write for Full {
    fn write_str(&mut self, _: &str) -> fmt::Result {
        Err(fmt::Error)
    }
}

#[test]
fn a_writer_may_fail() {
    let bundle = bundle_of("a = a { $x }\n");
    let pattern = bundle
        .get_message("a")
        .and_then(|message| message.value())
        .expect("a value");
    let mut errors = vec![];
    assert_eq!(
        bundle.write_pattern(&mut Full, pattern, None, &mut errors),
        Err(fmt::Error)
    );
    assert_eq!(errors.len(), 1);
}

#[test]
fn plural_rules_are_those_of_the_first_language() {
    let source = "a = { $n ->\n [few] few\n [one] one\n *[other] other\n }\n";
    let rules = |tag| {
        let mut bundle = FluentBundle::new(tag);
        bundle.add_resource(read(source)).expect("its id is new");
        [1, 3, 5].map(|n| shown(&bundle, "a", Some(&fluent_args!["n" => n])).0)
    };
    assert_eq!(
        rules(vec![langid!("pl-PL"), langid!("en")]),
        ["one", "few", "other"]
    );
    assert_eq!(rules(vec![langid!("ja")]), ["other", "other", "other"]);
    // English ones stand for a language without rules, and for none.
    for tags in [vec![langid!("qzz")], vec![langid!("und")], vec![]] {
        assert_eq!(rules(tags), ["one", "other", "other"]);
    }
}

#[test]
fn numbers_are_exact_and_others_are_texts() {
    let bundle = bundle_of("a = { $n }\nb = { $n ->\n [one] one\n *[other] other\n }\n");
    let text = |value: FluentValue| shown(&bundle, "a", Some(&fluent_args!["n" => value])).0;
    assert_eq!(text(u64::MAX.into()), "18446744073709551615");
    assert_eq!(
        text(FluentValue::try_number("0.100000000000000001")),
        "0.100000000000000001"
    );
    assert_eq!(text(0.1f64.into()), "0.1");
    assert_eq!(text(f64::INFINITY.into()), "inf");
    assert_eq!(text((1u128 << 64).into()), "18446744073709552000");
    let number: FluentNumber = "1.50".parse().expect("a number");
    assert_eq!(text(number.into()), "1.50");
    // The crate panics here.
    assert_eq!(
        shown(&bundle, "b", Some(&fluent_args!["n" => f64::NAN])).0,
        "other"
    );
}

#[test]
fn threads_share_a_concurrent_bundle() {
    fn goes_between<T: Send + Sync>() {}
    goes_between::<concurrent::FluentBundle<FluentResource>>();
    goes_between::<FluentResource>();

    let mut bundle = concurrent::FluentBundle::new_concurrent(vec![langid!("en")]);
    bundle
        .add_resource(read("a = { F($n) } { $n }\n"))
        .expect("its id is new");
    bundle
        .add_function("F", |positional, _| positional[0].clone())
        .expect("its id is new");
    bundle.set_use_isolating(false);
    thread::scope(|threads| {
        for number in 0..8 {
            let bundle = &bundle;
            threads.spawn(move || {
                for _ in 0..100 {
                    let pattern = bundle
                        .get_message("a")
                        .and_then(|message| message.value())
                        .expect("a value");
                    let mut errors = vec![];
                    let text = bundle.format_pattern(
                        pattern,
                        Some(&fluent_args!["n" => number]),
                        &mut errors,
                    );
                    assert_eq!(text, format!("{number} {number}"));
                }
            });
        }
    });
    thread::spawn(move || drop(bundle))
        .join()
        .expect("another thread closes it");
}
