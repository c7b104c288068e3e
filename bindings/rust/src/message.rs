//! Messages of a bundle.

use crate::ast;

/// An attribute of a message.
#[derive(Debug, PartialEq)]
pub struct FluentAttribute<'m> {
    node: &'m ast::Attribute<&'m str>,
}

impl<'m> FluentAttribute<'m> {
    /// Its name.
    pub fn id(&self) -> &'m str {
        &self.node.name
    }

    /// Its pattern. Of several attributes of one name it is formatted as the first.
    pub fn value(&self) -> &'m ast::Pattern<&'m str> {
        &self.node.value
    }
}

impl<'m> From<&'m ast::Attribute<&'m str>> for FluentAttribute<'m> {
    fn from(node: &'m ast::Attribute<&'m str>) -> Self {
        Self { node }
    }
}

/// A message of a bundle: a value, attributes, or both.
///
/// ```
/// use fluent_bundle::{FluentBundle, FluentResource};
///
/// let source = "close = Close\n    .key = C\n    .hint = Close this window\n";
/// let resource = FluentResource::try_new(source.to_string()).expect("it can be read");
/// let mut bundle = FluentBundle::default();
/// bundle.add_resource(resource).expect("its id is new");
///
/// let message = bundle.get_message("close").expect("it is there");
/// let names: Vec<&str> = message.attributes().map(|attribute| attribute.id()).collect();
/// assert_eq!(names, ["key", "hint"]);
///
/// let hint = message.get_attribute("hint").expect("it has one");
/// let mut errors = vec![];
/// assert_eq!(bundle.format_pattern(hint.value(), None, &mut errors), "Close this window");
/// ```
#[derive(Debug, PartialEq)]
pub struct FluentMessage<'m> {
    node: &'m ast::Message<&'m str>,
}

impl<'m> FluentMessage<'m> {
    /// Its value.
    pub fn value(&self) -> Option<&'m ast::Pattern<&'m str>> {
        self.node.value.as_ref()
    }

    /// Its attributes, in the order of the source.
    pub fn attributes(&self) -> impl Iterator<Item = FluentAttribute<'m>> {
        self.node.attributes.iter().map(FluentAttribute::from)
    }

    /// The first attribute of a name.
    pub fn get_attribute(&self, key: &str) -> Option<FluentAttribute<'m>> {
        let mut attributes = self.node.attributes.iter();
        let found = attributes.find(|attribute| &*attribute.name == key);
        found.map(FluentAttribute::from)
    }
}

impl<'m> From<&'m ast::Message<&'m str>> for FluentMessage<'m> {
    fn from(node: &'m ast::Message<&'m str>) -> Self {
        Self { node }
    }
}
