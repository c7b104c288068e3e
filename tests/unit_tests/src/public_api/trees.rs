//! Patterns made by hand, of what tables say of them.
use fluent_bundle::ast::{
    CallArguments, Expression, Identifier, InlineExpression, NamedArgument, Pattern,
    PatternElement, Variant, VariantKey,
};
use std::alloc::{AllocError, Global};

// ---- what tables say

/// An expression that takes no memory.
#[derive(Clone, Copy, Drop)]
pub enum Leaf {
    String(&'static str),
    Number(&'static str),
    Variable(&'static str),
    Message(&'static str),
}

/// A named argument.
pub type Named = (&'static str, Leaf);

/// A variant by its key, which is a name or a number, and its text.
#[derive(Clone, Copy, Drop)]
pub enum Case {
    Number(&'static str, &'static str),
    Name(&'static str, &'static str),
    Default(&'static str, &'static str),
}

/// A pattern: no element, a literal or a reference, the term `t` with named arguments, or a select by its selector.
#[derive(Clone, Copy, Drop)]
pub enum Tree {
    Nothing,
    Leaf(Leaf),
    Term(&'static [Named]),
    Choice(Leaf, &'static [Case]),
}

// ---- memory

/// Takes memory for lists and boxes, and knows whether any allocation failed. So what makes parts of a pattern has no exit
/// between them.
#[derive(Drop)]
struct Maker {
    alloc: Global,
    refused: bool,
}

fn add<T: Drop>(maker: &mut Maker, list: &mut Vec<T>, item: T) {
    if list.push(item).is_err() {
        maker.refused = true;
    }
}

fn boxed<T: Drop>(maker: &mut Maker, value: T) -> Option<Box<T>> {
    match Box::new(maker.alloc, value) {
        Ok(boxed) => Some(boxed),
        Err(_) => {
            maker.refused = true;
            None
        }
    }
}

// ---- parts

type Inline<'s> = InlineExpression<'s>;

fn leaf_of<'s>(leaf: Leaf) -> Inline<'s> {
    match leaf {
        Leaf::String(value) => InlineExpression::StringLiteral { value },
        Leaf::Number(value) => InlineExpression::NumberLiteral { value },
        Leaf::Variable(name) => InlineExpression::VariableReference {
            id: Identifier { name },
        },
        Leaf::Message(name) => InlineExpression::MessageReference {
            id: Identifier { name },
            attribute: None,
        },
    }
}

fn named_of<'s>(maker: &mut Maker, all: &[Named]) -> Vec<NamedArgument<'s>> {
    let mut list = Vec::new(maker.alloc);
    for (name, leaf) in all {
        let name = Identifier { name: *name };
        let value = leaf_of(*leaf);
        add(maker, &mut list, NamedArgument { name, value });
    }
    list
}

/// The term `t`; without arguments where an allocation for them failed.
fn term<'s>(maker: &mut Maker, all: &[Named]) -> Inline<'s> {
    let positional = Vec::new(maker.alloc);
    let named = named_of(maker, all);
    InlineExpression::TermReference {
        id: Identifier { name: "t" },
        attribute: None,
        arguments: boxed(maker, CallArguments { positional, named }),
    }
}

/// A pattern of one element, or of none.
fn pattern_of<'s>(maker: &mut Maker, element: Option<PatternElement<'s>>) -> Pattern<'s> {
    let mut elements = Vec::new(maker.alloc);
    if let Some(element) = element {
        add(maker, &mut elements, element);
    }
    Pattern { elements }
}

fn variant<'s>(
    maker: &mut Maker,
    key: VariantKey<'s>,
    text: &'static str,
    default: bool,
) -> Variant<'s> {
    let value = pattern_of(maker, Some(PatternElement::TextElement { value: text }));
    Variant {
        key,
        value,
        default,
    }
}

fn variant_of<'s>(maker: &mut Maker, case: Case) -> Variant<'s> {
    match case {
        Case::Number(value, text) => {
            variant(maker, VariantKey::NumberLiteral { value }, text, false)
        }
        Case::Name(name, text) => variant(maker, VariantKey::Identifier { name }, text, false),
        Case::Default(name, text) => variant(maker, VariantKey::Identifier { name }, text, true),
    }
}

fn variants_of<'s>(maker: &mut Maker, cases: &[Case]) -> Vec<Variant<'s>> {
    let mut list = Vec::new(maker.alloc);
    for case in cases {
        let variant = variant_of(maker, *case);
        add(maker, &mut list, variant);
    }
    list
}

fn expression_of<'s>(maker: &mut Maker, tree: Tree) -> Option<Expression<'s>> {
    match tree {
        Tree::Nothing => None,
        Tree::Leaf(leaf) => Some(Expression::Inline(leaf_of(leaf))),
        Tree::Term(named) => Some(Expression::Inline(term(maker, named))),
        Tree::Choice(leaf, cases) => Some(Expression::Select {
            selector: leaf_of(leaf),
            variants: variants_of(maker, cases),
        }),
    }
}

/// The pattern that a table says.
pub fn pattern<'s>(alloc: Global, tree: Tree) -> Result<Pattern<'s>, AllocError> {
    let mut maker = Maker {
        alloc,
        refused: false,
    };
    let element = match expression_of(&mut maker, tree) {
        Some(expression) => Some(PatternElement::Placeable { expression }),
        None => None,
    };
    let made = pattern_of(&mut maker, element);
    if maker.refused {
        Err(AllocError)
    } else {
        Ok(made)
    }
}
