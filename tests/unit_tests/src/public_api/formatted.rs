//! Messages that are formatted whole: the value, then the attributes in order.
use crate::check::check;
use crate::public_api::common::{Args, Bundle, arguments, bundle_of, read};
use crate::public_api::given::are;
use fluent_bundle::{FormattedAttribute, FormattedMessage};
use std::alloc::{AllocError, Global};
use std::borrow::CowStr;
use std::process::Abort;
use std::test::Fail;

const SOURCE: &str = "save = Save { $n } of { $all }
    .yes = { $x } it
    .no = No
    .key = { gone }
title =
    .t = One { $y }
    .t = { $n }
plain = Text
-term = Brand
";

/// The name of an attribute and its text.
type Named = (&'static str, &'static str);

/// The text of a value or none, and the attributes.
type Parts = (Option<&'static str>, &'static [Named]);

/// An id, what it shows where `$n` is given as 5, or none, and the lines of its errors.
type Row = (&'static str, Option<Parts>, &'static str);

const ROWS: &[Row] = &[
    (
        "save",
        Some((
            Some("Save \u{2068}5\u{2069} of \u{2068}{$all}\u{2069}"),
            &[
                ("yes", "\u{2068}{$x}\u{2069} it"),
                ("no", "No"),
                ("key", "{gone}"),
            ],
        )),
        "Resolver error: Unknown variable: $all
Resolver error: Unknown variable: $x
Resolver error: Unknown message: gone
",
    ),
    (
        "title",
        Some((None, &[("t", "One \u{2068}{$y}\u{2069}"), ("t", "5")])),
        "Resolver error: Unknown variable: $y\n",
    ),
    ("plain", Some((Some("Text"), &[])), ""),
    ("gone", None, ""),
    ("term", None, ""),
];

fn is_value(value: &Option<CowStr<'_>>, wanted: Option<&str>) -> bool {
    match (value, wanted) {
        (Some(text), Some(wanted)) => text.as_str() == wanted,
        (None, None) => true,
        _ => false,
    }
}

fn are_attributes(attributes: &[FormattedAttribute<'_>], wanted: &[Named]) -> bool {
    for (attribute, named) in attributes.iter().zip(wanted) {
        if attribute.name != named.0 || attribute.text.as_str() != named.1 {
            return false;
        }
    }
    attributes.len() == wanted.len()
}

fn is_message(message: &Option<FormattedMessage<'_>>, wanted: &Option<Parts>) -> bool {
    match (message, wanted) {
        (Some(message), Some((value, attributes))) => {
            is_value(&message.value, *value)
                && are_attributes(message.attributes.as_slice(), *attributes)
        }
        (None, None) => true,
        _ => false,
    }
}

fn formats(
    rt: &impl Abort,
    alloc: Global,
    bundle: &Bundle<'_, 'static>,
    row: &Row,
    args: &Args<'_>,
) -> Result<(), AllocError> {
    let mut errors = Vec::new(alloc);
    let message = bundle.format_message(row.0, Some(args), &mut errors)?;
    check(rt, is_message(&message, &row.1), row.0);
    are(rt, alloc, errors.as_slice(), row.2)
}

/// Run with each allocation failing in turn.
#[test]
fn a_message_is_formatted_whole(rt: HostRuntime) -> Result<(), Fail> {
    let resource = read(rt.alloc(), SOURCE)?;
    let bundle = bundle_of(rt.alloc(), &[], &resource)?;
    let args = arguments(rt.alloc(), &[("n", "5")])?;
    for row in ROWS {
        formats(&rt, rt.alloc(), &bundle, row, &args)?;
    }
    Ok(())
}
