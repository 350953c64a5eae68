//! What attributes are asked for: those made by hand, and of those read from text, their properties.

use crate::lists::{got, made, place, put, read_path, show_span, text_is, tokens};
use crate::nothing::Nothing;
use std::alloc::{AllocError, Global};
use std::fmt::Write;
use std::process::Abort;
use syn_mid::attr::{inner, outer};
use syn_mid::meta::ParseNestedMeta;
use syn_mid::{
    AttrStyle, Attribute, Expr, MacroDelimiter, Meta, MetaList, MetaNameValue, ParseOuter,
};
use token_core::token::{Bracket, Comma, Eq, Not, Paren, Pound};
use token_core::{Error, Ident, Items, Lit, Span, read_all_with};
use token_text::lex;

/// An attribute with this content, made by hand.
fn attribute(meta: Meta<Nothing>, style: AttrStyle) -> Attribute<Nothing> {
    Attribute {
        pound_token: Pound::default(),
        style,
        bracket_token: Bracket { span: place() },
        meta,
    }
}

/// The metas of a path: alone, with a list of `x y` and with a value.
fn metas(rt: &impl Abort, alloc: Global, text: &str) -> [Meta<Nothing>; 3] {
    let list = MetaList {
        path: read_path(rt, alloc, text),
        delimiter: MacroDelimiter::Paren(Paren { span: place() }),
        tokens: tokens(rt, alloc, "x y"),
    };
    let value = MetaNameValue {
        path: read_path(rt, alloc, text),
        eq_token: Eq {
            spans: [Span::new(40, 41)],
        },
        value: Expr::Other(Nothing {}),
    };
    let path = Meta::Path(read_path(rt, alloc, text));
    [path, Meta::from(list), Meta::from(value)]
}

/// What a refusal says, and where it points.
fn told(rt: &impl Abort, error: &Error, out: &mut String) {
    put(rt, error.text(), out);
    show_span(rt, error.start(), out);
    show_span(rt, error.end(), out);
}

fn write_count(list: &MetaList, out: &mut String) -> Result<(), AllocError> {
    write!(out, "list of {}", list.tokens.len())?;
    Ok(())
}

/// What the calls that ask for a kind of meta answer.
fn required(rt: &impl Abort, alloc: Global, meta: &Meta<Nothing>) -> String {
    let mut out = String::new(alloc);
    if meta.path().segments.is_empty() {
        return out;
    }
    match meta.require_path_only(alloc) {
        Ok(_) => put(rt, "path", &mut out),
        Err(error) => told(rt, &error, &mut out),
    }
    put(rt, "; ", &mut out);
    match meta.require_list(alloc) {
        Ok(list) => made(rt, write_count(list, &mut out)),
        Err(error) => told(rt, &error, &mut out),
    }
    put(rt, "; ", &mut out);
    match meta.require_name_value(alloc) {
        Ok(_) => put(rt, "value", &mut out),
        Err(error) => told(rt, &error, &mut out),
    }
    out
}

fn meta_answers(rt: &impl Abort, alloc: Global, meta: &Meta<Nothing>, wanted: &str) {
    let out = required(rt, alloc, meta);
    text_is(rt, out.as_str(), wanted);
}

/// What the metas of a path answer to the calls that ask for a kind.
fn requirements_are(rt: &impl Abort, alloc: Global, text: &str, wanted: [&str; 3]) {
    let metas = metas(rt, alloc, text);
    meta_answers(rt, alloc, &metas[0], wanted[0]);
    meta_answers(rt, alloc, &metas[1], wanted[1]);
    meta_answers(rt, alloc, &metas[2], wanted[2]);
}

#[test]
fn asks_for_kinds_of_metas(rt: HostRuntime) {
    let list = "unexpected token in attribute 50-51 50-51; list of 2; expected `=` 50-51 50-51";
    let value = "unexpected token in attribute 40-41 40-41; expected `(` 40-41 40-41; value";
    let path =
        "path; expected attribute arguments in parentheses: `::a::bc(...)` 3-4 8-10; expected a value for this attribute: `::a::bc = ...` 3-4 8-10";
    requirements_are(&rt, rt.alloc(), ":: a :: bc", [path, list, value]);
    let path =
        "path; expected attribute arguments in parentheses: `a(...)` 0-1 0-1; expected a value for this attribute: `a = ...` 0-1 0-1";
    requirements_are(&rt, rt.alloc(), "a", [path, list, value]);
}

/// What a whole read of an attribute's arguments as an identifier answers.
fn argument(rt: &impl Abort, alloc: Global, attr: &Attribute<Nothing>) -> String {
    let mut out = String::new(alloc);
    if attr.path().segments.is_empty() {
        return out;
    }
    match attr.parse_args::<Ident>(alloc) {
        Ok(ident) => put(rt, ident.text(), &mut out),
        Err(error) => told(rt, &error, &mut out),
    }
    out
}

fn argument_is(rt: &impl Abort, alloc: Global, attr: &Attribute<Nothing>, wanted: &str) {
    let out = argument(rt, alloc, attr);
    text_is(rt, out.as_str(), wanted);
}

/// What whole reads of the arguments of attributes answer, over the metas of a path.
fn arguments_are(rt: &impl Abort, alloc: Global, text: &str, style: AttrStyle, wanted: [&str; 3]) {
    let attrs = attributes(rt, alloc, text, [style, style, style]);
    argument_is(rt, alloc, &attrs[0], wanted[0]);
    argument_is(rt, alloc, &attrs[1], wanted[1]);
    argument_is(rt, alloc, &attrs[2], wanted[2]);
}

#[test]
fn reads_arguments(rt: HostRuntime) {
    let path = "expected attribute arguments in parentheses: #[a(...)] 0-1 0-1";
    let list = "unexpected token 2-3 2-3";
    let value = "expected parentheses: #[a(...)] 40-41 40-41";
    let wanted = [path, list, value];
    arguments_are(&rt, rt.alloc(), "a", AttrStyle::Outer, wanted);
    let bang = AttrStyle::Inner(Not::default());
    let path = "expected attribute arguments in parentheses: #![::a::b(...)] 3-4 8-9";
    let value = "expected parentheses: #![::a::b(...)] 40-41 40-41";
    let wanted = [path, list, value];
    arguments_are(&rt, rt.alloc(), ":: a :: b", bang, wanted);
}

/// Attributes over the metas of a path, in these styles.
fn attributes(
    rt: &impl Abort,
    alloc: Global,
    text: &str,
    styles: [AttrStyle; 3],
) -> [Attribute<Nothing>; 3] {
    let [path, list, value] = metas(rt, alloc, text);
    let [first, second, third] = styles;
    [
        attribute(path, first),
        attribute(list, second),
        attribute(value, third),
    ]
}

fn kind_of(attr: &Attribute<Nothing>) -> &'static str {
    match attr.meta {
        Meta::Path(_) => "p",
        Meta::List(_) => "l",
        Meta::NameValue(_) => "v",
    }
}

/// The kinds of the outer attributes of a list, in order.
fn outers_are(rt: &impl Abort, alloc: Global, attrs: &[Attribute<Nothing>], wanted: &str) {
    let mut out = String::new(alloc);
    for attr in outer(attrs) {
        put(rt, kind_of(attr), &mut out);
    }
    text_is(rt, out.as_str(), wanted);
}

/// The kinds of the inner attributes of a list, in order.
fn inners_are(rt: &impl Abort, alloc: Global, attrs: &[Attribute<Nothing>], wanted: &str) {
    let mut out = String::new(alloc);
    for attr in inner(attrs) {
        put(rt, kind_of(attr), &mut out);
    }
    text_is(rt, out.as_str(), wanted);
}

#[test]
fn gives_attributes_of_a_kind(rt: HostRuntime) {
    let bang = AttrStyle::Inner(Not::default());
    let styles = [AttrStyle::Outer, bang, AttrStyle::Outer];
    let attrs = attributes(&rt, rt.alloc(), "a", styles);
    outers_are(&rt, rt.alloc(), attrs.as_slice(), "pv");
    inners_are(&rt, rt.alloc(), attrs.as_slice(), "l");
    let attrs = attributes(&rt, rt.alloc(), "a", [bang, AttrStyle::Outer, bang]);
    outers_are(&rt, rt.alloc(), attrs.as_slice(), "l");
    inners_are(&rt, rt.alloc(), attrs.as_slice(), "pv");
}

#[test]
fn gives_all_attributes_or_none(rt: HostRuntime) {
    let styles = [AttrStyle::Outer, AttrStyle::Outer, AttrStyle::Outer];
    let attrs = attributes(&rt, rt.alloc(), "a", styles);
    outers_are(&rt, rt.alloc(), attrs.as_slice(), "plv");
    inners_are(&rt, rt.alloc(), attrs.as_slice(), "");
    let bang = AttrStyle::Inner(Not::default());
    let attrs = attributes(&rt, rt.alloc(), "a", [bang, bang, bang]);
    outers_are(&rt, rt.alloc(), attrs.as_slice(), "");
    inners_are(&rt, rt.alloc(), attrs.as_slice(), "plv");
    outers_are(&rt, rt.alloc(), &[], "");
    inners_are(&rt, rt.alloc(), &[], "");
}

/// What a closure does at a property.
#[derive(Clone, Copy)]
enum Does {
    /// Reads a literal after `=`, where one stands.
    Values,
    /// Reads nothing.
    Nothing,
    /// Answers its own error at once, or after a value.
    Refuses,
    RefusesLate,
    /// Reads all of `= 1, c`.
    Everything,
    /// Opens parentheses, and reads nothing in them.
    Opens,
}

fn value(alloc: Global, meta: &mut ParseNestedMeta<'_>) -> Result<(), Error> {
    if meta.input.peek::<Eq>() {
        meta.value(alloc)?.parse::<Lit>(alloc)?;
    }
    Ok(())
}

fn everything(alloc: Global, meta: &mut ParseNestedMeta<'_>) -> Result<(), Error> {
    value(alloc, meta)?;
    meta.input.parse::<Comma>(alloc)?;
    meta.input.parse::<Ident>(alloc)?;
    Ok(())
}

fn open(alloc: Global, meta: &mut ParseNestedMeta<'_>) -> Result<(), Error> {
    let (_, content) = meta.input.parenthesized(alloc)?;
    meta.input.finish(content);
    Ok(())
}

fn refuse(alloc: Global, meta: &ParseNestedMeta<'_>) -> Result<(), Error> {
    if meta.path.segments.is_empty() {
        return Ok(());
    }
    Err(meta.error(alloc, "no"))
}

fn at_property(alloc: Global, does: Does, meta: &mut ParseNestedMeta<'_>) -> Result<(), Error> {
    match does {
        Does::Values => value(alloc, meta),
        Does::Nothing => Ok(()),
        Does::Refuses => refuse(alloc, meta),
        Does::RefusesLate => {
            value(alloc, meta)?;
            refuse(alloc, meta)
        }
        Does::Everything => everything(alloc, meta),
        Does::Opens => open(alloc, meta),
    }
}

fn write_name(meta: &ParseNestedMeta<'_>, out: &mut String) -> Result<(), AllocError> {
    if let Some(segment) = meta.path.segments.first() {
        write!(out, "{} ", segment.ident.text())?;
    }
    Ok(())
}

fn read_outers(alloc: Global, text: &str) -> Result<Items<Attribute<Nothing>>, Error> {
    let tokens = lex(alloc, text)?;
    read_all_with(alloc, ParseOuter::<Nothing>::new(), &tokens)
}

/// The properties at which a closure was called, and what the call that reads them answered.
fn properties(rt: &impl Abort, alloc: Global, does: Does, text: &str) -> String {
    let mut out = String::new(alloc);
    for attr in got(rt, read_outers(alloc, text)).iter() {
        if attr.path().segments.is_empty() {
            return out;
        }
        let mut calls = String::new(alloc);
        let logic = |alloc: Global, meta: &mut ParseNestedMeta<'_>| -> Result<(), Error> {
            write_name(meta, &mut calls)?;
            at_property(alloc, does, meta)
        };
        let answer = attr.parse_nested_meta(alloc, logic);
        put(rt, calls.as_str(), &mut out);
        match answer {
            Ok(()) => put(rt, "ok", &mut out),
            Err(error) => told(rt, &error, &mut out),
        }
    }
    out
}

#[test]
fn reads_properties_of_arguments(rt: HostRuntime) {
    for (does, text, wanted) in [
        (
            Does::Values,
            "#[a(::)]",
            "unexpected end of input, expected nested attribute 6-7 6-7",
        ),
        (
            Does::Values,
            "#[a(::5)]",
            "unexpected literal in nested attribute, expected ident 6-7 6-7",
        ),
        (Does::Values, "#[a(b::5)]", "expected identifier 7-8 7-8"),
        (Does::Nothing, "#[a(b = 1, c)]", "b expected `,` 6-7 6-7"),
        (Does::Refuses, "#[a(b = 1, c)]", "b no 4-5 4-5"),
        (Does::Everything, "#[a(b = 1, c)]", "b ok"),
        (Does::Values, "#[a(b = 1, c)]", "b c ok"),
        (Does::Opens, "#[a(b(x))]", "b unexpected token 6-7 6-7"),
        (Does::Refuses, "#[a(b = 1)]", "b no 4-5 4-5"),
        (Does::RefusesLate, "#[a(b = 1)]", "b no 4-5 8-9"),
    ] {
        let out = properties(&rt, rt.alloc(), does, text);
        text_is(&rt, out.as_str(), wanted);
    }
}
