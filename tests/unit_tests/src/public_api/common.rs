//! What the tests share: sources, bundles and arguments.
use fluent_bundle::ast::{Entry, Message, Pattern};
use fluent_bundle::{
    Call, FluentArgs, FluentBundle, FluentError, FluentResource, FluentValue, NoCustom, Scope,
};
use fluent_intl::EnglishPlurals;
use std::alloc::{AllocError, Global};
use std::borrow::CowStr;
use std::test::Fail;
use test_contracts::own::{Bracketed, Own, Upper};

// ---- sources

/// A source as it is read, with Junk or without.
pub fn read<'s>(alloc: Global, source: &'s str) -> Result<FluentResource<'s>, AllocError> {
    let (resource, _errors) = FluentResource::read(alloc, source)?;
    Ok(resource)
}

/// The first entry of a resource, a message.
pub fn message_of<'r, 's>(resource: &'r FluentResource<'s>) -> Result<&'r Message<'s>, Fail> {
    match resource.get_entry(0) {
        Some(Entry::Message(message)) => Ok(message),
        _ => Err("no message".into()),
    }
}

/// The value of the first entry of a resource.
pub fn value_of<'r, 's>(resource: &'r FluentResource<'s>) -> Result<&'r Pattern<'s>, Fail> {
    match &message_of(resource)?.value {
        Some(pattern) => Ok(pattern),
        None => Err("no value".into()),
    }
}

// ---- bundles

/// A bundle in English.
pub type Bundle<'r, 's> = FluentBundle<'r, 's, EnglishPlurals, NoCustom, Own, Bracketed, Upper>;

/// A scope of such a bundle.
pub type Scoped<'errors, 'p, 'r, 's> = Scope<
    'errors,
    'p,
    'r,
    's,
    'static,
    NoCustom,
    Own,
    Bundle<'r, 's>,
>;

/// What is set in a bundle before its source is added.
#[derive(Clone, Copy, Drop)]
pub enum Setting {
    Function(&'static str, Own),
    Brackets,
    Limit(usize),
}

fn set(bundle: &mut Bundle<'_, '_>, setting: Setting) -> Result<(), AllocError> {
    match setting {
        Setting::Function(id, own) => bundle.make(Call::AddFunction(id, own)),
        Setting::Brackets => bundle.make(Call::SetFormatter(Some(Bracketed))),
        Setting::Limit(limit) => bundle.make(Call::SetPlaceableLimit(limit)),
    }
}

/// A bundle with nothing in it.
pub fn empty<'r, 's>(alloc: Global) -> Bundle<'r, 's> {
    FluentBundle::new(alloc, Vec::new(alloc), EnglishPlurals)
}

/// A bundle with settings and a resource.
pub fn bundle_of<'r, 's>(
    alloc: Global,
    settings: &[Setting],
    resource: &'r FluentResource<'s>,
) -> Result<Bundle<'r, 's>, AllocError> {
    let mut bundle: Bundle<'r, 's> = empty(alloc);
    for setting in settings {
        set(&mut bundle, *setting)?;
    }
    bundle.make(Call::AddResource(resource))?;
    Ok(bundle)
}

/// The value of a message.
pub fn value_in<'r, 's>(bundle: &Bundle<'r, 's>, id: &str) -> Option<&'r Pattern<'s>> {
    bundle.get_message(id)?.value()
}

// ---- arguments and errors

/// An argument by its name and its text, which is a number where it reads as one.
pub type Given = (&'static str, &'static str);

pub type Args<'a> = FluentArgs<'a, NoCustom>;

pub fn arguments(alloc: Global, given: &[Given]) -> Result<Args<'static>, AllocError> {
    let mut args = FluentArgs::new(alloc);
    for (name, text) in given {
        args.set(CowStr::Borrowed(*name), FluentValue::try_number(*text))?;
    }
    Ok(args)
}

fn lines_once(alloc: Global, errors: &[FluentError]) -> Result<String, AllocError> {
    let mut out = String::new(alloc);
    for error in errors {
        write!(out, "{error}\n")?;
    }
    Ok(out)
}

/// The texts of errors, each with a line feed, written a second time where an allocation fails at the first.
pub fn lines(alloc: Global, errors: &[FluentError]) -> Result<String, AllocError> {
    match lines_once(alloc, errors) {
        Ok(found) => Ok(found),
        Err(AllocError) => lines_once(alloc, errors),
    }
}
