//! Bundles.

use crate::asking::{self, Own};
use crate::ast::{Message, Pattern};
use crate::ffi::{Bundle, Status};
use crate::intl_memoizer::IntlLangMemoizer;
use crate::library::{self, with_memory, Opened};
use crate::memoizer::MemoizerKind;
use crate::records::read_errors;
use crate::resolver::errors::ReferenceKind;
use crate::resolver::ResolverError;
use crate::unic_langid::LanguageIdentifier;
use crate::{
    resource, EntryKind, FluentArgs, FluentError, FluentMessage, FluentResource, FluentValue,
};
use std::borrow::{Borrow, Cow};
use std::collections::HashMap;
use std::fmt;
use std::sync::{Arc, Mutex, MutexGuard, OnceLock, PoisonError};

/// What was added to a bundle, so that it can be opened anew.
enum Added {
    Source { text: Arc<String>, over: bool },
    Function(String),
    Builtins,
}

/// The messages of a language, with functions of the program.
///
/// ```
/// use fluent_bundle::unic_langid::langid;
/// use fluent_bundle::{FluentArgs, FluentBundle, FluentResource};
///
/// let source = "intro = Welcome, { $name }.";
/// let resource = FluentResource::try_new(source.to_string()).expect("it can be read");
/// let mut bundle = FluentBundle::new(vec![langid!("en-US")]);
/// bundle.add_resource(&resource).expect("its id is new");
///
/// let message = bundle.get_message("intro").expect("it is there");
/// let pattern = message.value().expect("it has a value");
/// let mut args = FluentArgs::new();
/// args.set("name", "Ada");
/// let mut errors = vec![];
/// let text = bundle.format_pattern(pattern, Some(&args), &mut errors);
/// // The marks around the name keep texts of other directions apart.
/// assert_eq!(text, "Welcome, \u{2068}Ada\u{2069}.");
/// assert!(errors.is_empty());
/// ```
///
/// `R` is what can be borrowed as a [`FluentResource`]: one, a reference to one, an `Rc`, an `Arc`. The library takes a copy of
/// its source.
pub struct FluentBundle<R, M> {
    /// The languages; the first has chosen the plural rules when the bundle was made.
    pub locales: Vec<LanguageIdentifier>,
    own: Own<M>,
    /// One thread at a time asks the library. Nobody's code runs while it is locked.
    library: Mutex<Bundle>,
    plural_language: String,
    isolating: bool,
    added: Vec<Added>,
    resources: Vec<R>,
    /// What is known of each message that a resource has, since it was asked for: `None` where its id names something else.
    messages: HashMap<Box<str>, OnceLock<Option<Message<&'static str>>>>,
}

impl<R, M> FluentBundle<R, M> {
    pub(crate) fn with_intls(locales: Vec<LanguageIdentifier>) -> Self
    where
        M: MemoizerKind,
    {
        let first = locales.first().cloned().unwrap_or_default();
        let Opened { bundle, language } = library::open_for(&first, true);
        Self {
            locales,
            own: Own {
                functions: HashMap::new(),
                transform: None,
                formatter: None,
                intls: M::new(first),
            },
            library: Mutex::new(bundle),
            plural_language: language,
            isolating: true,
            added: Vec::new(),
            resources: Vec::new(),
            messages: HashMap::new(),
        }
    }

    fn library(&self) -> MutexGuard<'_, Bundle> {
        self.library.lock().unwrap_or_else(PoisonError::into_inner)
    }

    fn library_mut(&mut self) -> &mut Bundle {
        self.library
            .get_mut()
            .unwrap_or_else(PoisonError::into_inner)
    }

    pub(crate) fn intls(&self) -> &M {
        &self.own.intls
    }

    pub(crate) fn plural_language(&self) -> &str {
        &self.plural_language
    }

    /// The text that the formatter gives of a value.
    pub(crate) fn formatted(&self, value: &FluentValue) -> Option<String> {
        self.own.formatter?(value, &self.own.intls)
    }

    /// Adds the messages and terms of a resource. An entry whose id is there is left, and reported.
    ///
    /// ```
    /// use fluent_bundle::{FluentBundle, FluentResource};
    ///
    /// let read = |source: &str| FluentResource::try_new(source.to_string()).expect("it can be read");
    /// let mut bundle = FluentBundle::default();
    /// bundle.add_resource(read("hello = Hi!\nbye = Bye!\n")).expect("its ids are new");
    /// let errors = bundle.add_resource(read("hello = Another hi!\n")).expect_err("it is there");
    /// assert_eq!(errors[0].to_string(), "Attempt to override an existing message: \"hello\".");
    /// assert!(bundle.has_message("bye"));
    /// ```
    pub fn add_resource(&mut self, r: R) -> Result<(), Vec<FluentError>>
    where
        R: Borrow<FluentResource>,
    {
        for id in r.borrow().ids() {
            self.messages.entry(id.into()).or_default();
        }
        self.add(r, false);
        let told = library::told(self.library_mut()).into_iter();
        let errors = told.map(|told| told.error);
        let errors: Vec<_> = errors
            .filter(|error| matches!(error, FluentError::Overriding { .. }))
            .collect();
        if errors.is_empty() {
            Ok(())
        } else {
            Err(errors)
        }
    }

    /// Adds the messages and terms of a resource, in the place of what has their ids.
    ///
    /// ```
    /// use fluent_bundle::{FluentBundle, FluentResource};
    ///
    /// let read = |source: &str| FluentResource::try_new(source.to_string()).expect("it can be read");
    /// let mut bundle = FluentBundle::default();
    /// bundle.add_resource(read("hello = Hi!\n")).expect("its id is new");
    /// bundle.add_resource_overriding(read("hello = Another hi!\n"));
    ///
    /// let pattern = bundle.get_message("hello").and_then(|message| message.value());
    /// let mut errors = vec![];
    /// let text = bundle.format_pattern(pattern.expect("a value"), None, &mut errors);
    /// assert_eq!(text, "Another hi!");
    /// ```
    pub fn add_resource_overriding(&mut self, r: R)
    where
        R: Borrow<FluentResource>,
    {
        for id in r.borrow().ids() {
            self.messages.entry(id.into()).or_default();
        }
        for known in self.messages.values_mut() {
            *known = OnceLock::new();
        }
        self.add(r, true);
    }

    fn add(&mut self, r: R, over: bool)
    where
        R: Borrow<FluentResource>,
    {
        let text = r.borrow().shared_source();
        self.put(Added::Source { text, over });
        self.resources.push(r);
    }

    /// Adds something to the bundle of the library, and notes it.
    fn put(&mut self, new: Added) -> Status {
        let status = put_into(self.library_mut(), &new);
        if status == Status::OK {
            self.added.push(new);
        }
        status
    }

    /// Sets whether each placeable stands between U+2068 and U+2069, so that its direction does not meet the text's. It is on
    /// at first.
    ///
    /// Where it changes, all that was added is read once more.
    pub fn set_use_isolating(&mut self, value: bool) {
        if value != self.isolating {
            self.isolating = value;
            let mut bundle = library::open(&self.plural_language, value).bundle;
            for one in &self.added {
                put_into(&mut bundle, one);
            }
            *self.library_mut() = bundle;
            self.declare();
        }
    }

    /// Tells the library whether there are a transform and a formatter.
    fn declare(&mut self) {
        let (transform, formatter) = (self.own.transform.is_some(), self.own.formatter.is_some());
        let bundle = self.library_mut();
        with_memory(bundle.declare_transform(transform));
        with_memory(bundle.declare_formatter(formatter));
    }

    /// Sets a function that is called on each text element of a pattern, as for pseudolocalization.
    ///
    /// Unlike in the crate one call of the function may stand for equal texts of one formatting call.
    pub fn set_transform(&mut self, func: Option<fn(&str) -> Cow<str>>) {
        self.own.transform = func;
        self.declare();
    }

    /// Sets a function that may give the text of a value in the place of what is usual, as for numbers.
    ///
    /// Unlike in the crate one call of the function may stand for equal values of one formatting call.
    #[allow(clippy::type_complexity)]
    pub fn set_formatter(&mut self, func: Option<fn(&FluentValue, &M) -> Option<String>>) {
        self.own.formatter = func;
        self.declare();
    }

    /// Whether there is a message of the id.
    pub fn has_message(&self, id: &str) -> bool {
        self.get_message(id).is_some()
    }

    /// The message of an id.
    pub fn get_message<'l>(&'l self, id: &str) -> Option<FluentMessage<'l>> {
        let known = self.messages.get(id)?.get_or_init(|| {
            let mut library = self.library();
            library.has(id).then(|| resource::message(&mut library, id))
        });
        known.as_ref().map(FluentMessage::from)
    }

    /// Writes the text of a pattern, and adds the errors in it.
    ///
    /// Unlike in the crate a pattern is the name of a text: of a message of this bundle or of its attribute. It means what these
    /// are in this bundle, also where another bundle gave it; where they aren't there, its name stands in braces. The text is
    /// written by one call of the writer.
    pub fn write_pattern<W>(
        &self,
        w: &mut W,
        pattern: &Pattern<&str>,
        args: Option<&FluentArgs>,
        errors: &mut Vec<FluentError>,
    ) -> fmt::Result
    where
        W: fmt::Write,
        M: MemoizerKind,
    {
        w.write_str(&self.text_of(pattern, args, errors))
    }

    /// The text of a pattern, or what the formatter gives of it; adds the errors in it.
    ///
    /// Unlike in the crate a pattern is a name, as [`write_pattern`](Self::write_pattern) says.
    pub fn format_pattern<'bundle>(
        &'bundle self,
        pattern: &Pattern<&str>,
        args: Option<&FluentArgs>,
        errors: &mut Vec<FluentError>,
    ) -> Cow<'bundle, str>
    where
        M: MemoizerKind,
    {
        let text = self.text_of(pattern, args, errors);
        if self.own.formatter.is_none() {
            return Cow::Owned(text);
        }
        let value = FluentValue::from(text.as_str());
        Cow::Owned(self.formatted(&value).unwrap_or(text))
    }

    fn text_of(
        &self,
        pattern: &Pattern<&str>,
        args: Option<&FluentArgs>,
        errors: &mut Vec<FluentError>,
    ) -> String
    where
        M: MemoizerKind,
    {
        let given = asking::format(&self.own, pattern, args, |asked| {
            library::format(&mut self.library(), asked)
        });
        match given {
            Some((text, records)) => {
                errors.extend(read_errors(&records).map(FluentError::from));
                text
            }
            None => {
                errors.push(ResolverError::Reference(reference_to(pattern)).into());
                format!("{{{pattern}}}")
            }
        }
    }

    /// Adds a function of the program, where its id is free.
    ///
    /// ```
    /// use fluent_bundle::{FluentBundle, FluentResource, FluentValue};
    ///
    /// let source = "length = { STRLEN(\"12345\") }";
    /// let resource = FluentResource::try_new(source.to_string()).expect("it can be read");
    /// let mut bundle = FluentBundle::default();
    /// bundle.add_resource(resource).expect("its id is new");
    /// bundle
    ///     .add_function("STRLEN", |positional, _named| match positional {
    ///         [FluentValue::String(text)] => text.len().into(),
    ///         _ => FluentValue::Error,
    ///     })
    ///     .expect("its id is new");
    ///
    /// let pattern = bundle.get_message("length").and_then(|message| message.value());
    /// let mut errors = vec![];
    /// assert_eq!(bundle.format_pattern(pattern.expect("a value"), None, &mut errors), "5");
    /// ```
    ///
    /// Unlike in the crate one call of the function may stand for equal arguments of one formatting call.
    pub fn add_function<F>(&mut self, id: &str, func: F) -> Result<(), FluentError>
    where
        F: for<'a> Fn(&[FluentValue<'a>], &FluentArgs) -> FluentValue<'a> + Sync + Send + 'static,
    {
        match self.put(Added::Function(id.to_string())) {
            Status::OK => {
                self.own.functions.insert(id.to_string(), Box::new(func));
                Ok(())
            }
            _ => Err(taken(id)),
        }
    }

    /// Adds Fluent's own functions: `NUMBER`.
    ///
    /// ```
    /// use fluent_bundle::{fluent_args, FluentBundle, FluentResource};
    ///
    /// let source = "rank = { NUMBER($n, type: \"ordinal\") ->\n [one] { $n }st\n *[other] { $n }th\n }\n";
    /// let resource = FluentResource::try_new(source.to_string()).expect("it can be read");
    /// let mut bundle = FluentBundle::default();
    /// bundle.add_resource(resource).expect("its id is new");
    /// bundle.add_builtins().expect("its id is new");
    ///
    /// let pattern = bundle.get_message("rank").and_then(|message| message.value());
    /// let mut errors = vec![];
    /// let args = fluent_args!["n" => 21];
    /// let text = bundle.format_pattern(pattern.expect("a value"), Some(&args), &mut errors);
    /// assert_eq!(text, "\u{2068}21\u{2069}st");
    /// ```
    pub fn add_builtins(&mut self) -> Result<(), FluentError> {
        match self.put(Added::Builtins) {
            Status::OK => Ok(()),
            _ => Err(taken("NUMBER")),
        }
    }
}

fn put_into(bundle: &mut Bundle, new: &Added) -> Status {
    with_memory(match new {
        Added::Source { text, over } => bundle.add(text, *over),
        Added::Function(id) => bundle.declare_function(id),
        Added::Builtins => bundle.add_builtins(),
    })
}

fn taken(id: &str) -> FluentError {
    FluentError::Overriding {
        kind: EntryKind::Function,
        id: id.to_string(),
    }
}

fn reference_to(pattern: &Pattern<&str>) -> ReferenceKind {
    ReferenceKind::Message {
        id: pattern.id.to_string(),
        attribute: pattern.attribute.as_deref().map(str::to_string),
    }
}

impl<R> Default for FluentBundle<R, IntlLangMemoizer> {
    fn default() -> Self {
        Self::new(vec![LanguageIdentifier::default()])
    }
}

impl<R> FluentBundle<R, IntlLangMemoizer> {
    /// A bundle of one thread, for the plural rules of the first language.
    ///
    /// These are those of the Unicode CLDR, and English ones for a language that has none there. Unlike in the crate nothing
    /// panics.
    pub fn new(locales: Vec<LanguageIdentifier>) -> Self {
        Self::with_intls(locales)
    }
}
