//! Attributes read from text: what the calls on them answer, and the texts and places of their refusals.

use crate::nested_tests::{Does, at_property, called, show};
use std::alloc::Global;
use std::process::Abort;
use syn_mid::meta::ParseNestedMeta;
use syn_mid::{Attribute, Meta, MetaList, MetaNameValue, Place, Subtree, VerbatimExpr};
use syn_sample::sample::Sample;
use token_core::token::FatArrow;
use token_core::{
    ByFn, Error, Ident, Items, Parse, ParseStream, Span, ToTokens, TokenStream, read_all,
    read_all_with,
};
use token_text::{lex, text_of};

/// What was answered, or the refusal's text and place.
fn told(alloc: Global, answer: Result<String, Error>) -> Result<String, Error> {
    let mut out = String::new(alloc);
    match answer {
        Ok(text) => out.push_str(text.as_str())?,
        Err(error) => show(Err(error), &mut out)?,
    }
    Ok(out)
}

/// It answers this; of a refusal, its text and place.
pub(crate) fn says(rt: &impl Abort, alloc: Global, answer: Result<String, Error>, wanted: &str) {
    match told(alloc, answer) {
        Ok(text) => assert_eq!(rt; text.trim(), wanted),
        Err(_) => panic!(rt; "out of memory"),
    }
}

fn printed<T: ToTokens>(alloc: Global, tree: &T) -> Result<String, Error> {
    let mut out = TokenStream::new(alloc);
    tree.to_tokens(alloc, &mut out)?;
    Ok(text_of(alloc, &out)?)
}

/// Outer attributes, by a function that is handed on as a parser.
fn parse_outer(
    alloc: Global,
    input: &mut ParseStream<'_>,
) -> Result<Items<Attribute<Sample>>, Error> {
    Attribute::parse_outer(alloc, input)
}

/// Inner attributes, likewise.
fn parse_inner(
    alloc: Global,
    input: &mut ParseStream<'_>,
) -> Result<Items<Attribute<Sample>>, Error> {
    Attribute::parse_inner(alloc, input)
}

fn outers(alloc: Global, text: &str) -> Result<Items<Attribute<Sample>>, Error> {
    let tokens = lex(alloc, text)?;
    read_all_with(alloc, ByFn(parse_outer), &tokens)
}

fn inners(alloc: Global, text: &str) -> Result<Items<Attribute<Sample>>, Error> {
    let tokens = lex(alloc, text)?;
    read_all_with(alloc, ByFn(parse_inner), &tokens)
}

/// The last of some attributes.
fn last(
    alloc: Global,
    read: Result<Items<Attribute<Sample>>, Error>,
) -> Result<Attribute<Sample>, Error> {
    match read?.pop() {
        Some(attr) => Ok(attr),
        None => Err(Error::new(alloc, Span::none(), "no attribute")),
    }
}

/// The arguments of the last attribute, read as an identifier.
fn argument(alloc: Global, read: Result<Items<Attribute<Sample>>, Error>) -> Result<String, Error> {
    let attr = last(alloc, read)?;
    let ident = attr.parse_args::<Ident>(alloc)?;
    printed(alloc, &ident)
}

#[test]
fn arguments_stand_in_parentheses(rt: HostRuntime) {
    let alloc = rt.alloc();
    for (text, wanted) in [
        ("#[a(b)]", "b"),
        ("#[a[b]]", "b"),
        ("#[a {b}]", "b"),
        ("#[x] #[a(b)]", "b"),
        ("#[a(b c)]", "unexpected token 6-7 6-7"),
        (
            "#[a()]",
            "unexpected end of input, expected identifier 4-5 4-5",
        ),
        (
            "#[foo]",
            "expected attribute arguments in parentheses: #[foo(...)] 2-5 2-5",
        ),
        (
            "#[unsafe]",
            "expected attribute arguments in parentheses: #[unsafe(...)] 2-8 2-8",
        ),
        ("#[a = 1]", "expected parentheses: #[a(...)] 4-5 4-5"),
        (
            "#[::a::b = 1]",
            "expected parentheses: #[::a::b(...)] 9-10 9-10",
        ),
    ] {
        says(&rt, alloc, argument(alloc, outers(alloc, text)), wanted);
    }
    for (text, wanted) in [
        ("#![a(b)]", "b"),
        (
            "#![::a::b]",
            "expected attribute arguments in parentheses: #![::a::b(...)] 5-6 8-9",
        ),
        ("#![a = 1]", "expected parentheses: #![a(...)] 5-6 5-6"),
    ] {
        says(&rt, alloc, argument(alloc, inners(alloc, text)), wanted);
    }
}

fn path_only(alloc: Global, text: &str) -> Result<String, Error> {
    let attr = last(alloc, outers(alloc, text))?;
    printed(alloc, attr.meta.require_path_only(alloc)?)
}

fn list(alloc: Global, text: &str) -> Result<String, Error> {
    let attr = last(alloc, outers(alloc, text))?;
    printed(alloc, attr.meta.require_list(alloc)?)
}

fn name_value(alloc: Global, text: &str) -> Result<String, Error> {
    let attr = last(alloc, outers(alloc, text))?;
    printed(alloc, attr.meta.require_name_value(alloc)?)
}

#[test]
fn kinds_of_metas_are_required(rt: HostRuntime) {
    let alloc = rt.alloc();
    for (text, wanted) in [
        ("#[a]", "a"),
        ("#[a(b)]", "unexpected token in attribute 3-4 3-4"),
        ("#[a = 1]", "unexpected token in attribute 4-5 4-5"),
    ] {
        says(&rt, alloc, path_only(alloc, text), wanted);
    }
    for (text, wanted) in [
        (
            "#[foo]",
            "expected attribute arguments in parentheses: `foo(...)` 2-5 2-5",
        ),
        ("#[a::c(b)]", "a :: c (b)"),
        ("#[a = 1]", "expected `(` 4-5 4-5"),
    ] {
        says(&rt, alloc, list(alloc, text), wanted);
    }
    for (text, wanted) in [
        (
            "#[foo]",
            "expected a value for this attribute: `foo = ...` 2-5 2-5",
        ),
        (
            "#[a::b]",
            "expected a value for this attribute: `a::b = ...` 2-3 5-6",
        ),
        ("#[a(b)]", "expected `=` 3-4 3-4"),
        ("#[a = 1]", "a = 1"),
    ] {
        says(&rt, alloc, name_value(alloc, text), wanted);
    }
}

/// The first attribute that is refused.
fn refused(alloc: Global, text: &str) -> Result<String, Error> {
    drop(outers(alloc, text)?);
    Ok(String::new(alloc))
}

#[test]
fn attributes_are_refused(rt: HostRuntime) {
    let alloc = rt.alloc();
    for (text, wanted) in [
        ("", ""),
        (
            "#[a = #[b]]",
            "unexpected attribute inside of attribute 6-7 6-7",
        ),
        ("#[a] #![b]", "expected square brackets 6-7 6-7"),
        ("#[a b]", "unexpected token 4-5 4-5"),
        ("#[a == 1]", "unexpected token 4-5 4-5"),
        ("#[a => 1]", "unexpected token 4-5 4-5"),
        ("#[a(b) c]", "unexpected token 7-8 7-8"),
        ("#(a)", "expected square brackets 1-2 1-2"),
        ("a", "unexpected token 0-1 0-1"),
        (
            "#[]",
            "unexpected end of input, expected identifier 2-3 2-3",
        ),
    ] {
        says(&rt, alloc, refused(alloc, text), wanted);
    }
}

/// Outer attributes on the front of a list, as they are printed, and what stands behind them.
fn outers_and_rest(alloc: Global, input: &mut ParseStream<'_>) -> Result<String, Error> {
    let mut out = TokenStream::new(alloc);
    for attr in parse_outer(alloc, input)?.iter() {
        attr.to_tokens(alloc, &mut out)?;
    }
    let mut text = text_of(alloc, &out)?;
    text.push_str(" | ")?;
    let rest = VerbatimExpr::read(alloc, Place::Block, input)?;
    text.push_str(printed(alloc, &rest)?.as_str())?;
    Ok(text)
}

fn front(alloc: Global, text: &str) -> Result<String, Error> {
    let tokens = lex(alloc, text)?;
    read_all_with(alloc, ByFn(outers_and_rest), &tokens)
}

#[test]
fn attributes_end_before_what_is_none(rt: HostRuntime) {
    let alloc = rt.alloc();
    for (text, again, wanted) in [
        ("", "", "|"),
        ("struct S;", "struct S ;", "| struct S ;"),
        ("#[a]", "# [a]", "# [a] |"),
        (
            "#[a] #[b(c d)] struct S;",
            "# [a] # [b (c d)] struct S ;",
            "# [a] # [b (c d)] | struct S ;",
        ),
        (
            "#[a = b]#[c](d) #[e]",
            "# [a = b] # [c] (d) # [e]",
            "# [a = b] # [c] | (d) # [e]",
        ),
        (
            "#[unsafe(a = 1)] ! [b]",
            "# [unsafe (a = 1)] ! [b]",
            "# [unsafe (a = 1)] | ! [b]",
        ),
    ] {
        says(&rt, alloc, front(alloc, text), wanted);
        says(&rt, alloc, front(alloc, again), wanted);
    }
    for (text, wanted) in [
        ("#[a] # b", "expected square brackets 7-8 7-8"),
        ("#[a b] c", "unexpected token 4-5 4-5"),
    ] {
        says(&rt, alloc, front(alloc, text), wanted);
    }
}

/// What a tree read from all of a text prints.
fn reprinted<T: Parse + ToTokens>(alloc: Global, text: &str) -> Result<String, Error> {
    let tokens = lex(alloc, text)?;
    let tree = read_all::<T>(alloc, &tokens)?;
    printed(alloc, &tree)
}

#[test]
fn metas_are_read(rt: HostRuntime) {
    let alloc = rt.alloc();
    for (text, wanted) in [
        ("a", "a"),
        ("a::b(c d)", "a :: b (c d)"),
        ("a = -1", "a = - 1"),
        ("unsafe(a = 1)", "unsafe (a = 1)"),
    ] {
        says(&rt, alloc, reprinted::<Meta<Sample>>(alloc, text), wanted);
    }
    for (text, wanted) in [
        ("a{ b }", "a { b }"),
        ("a", "unexpected end of input, expected delimiter 0-0 0-0"),
    ] {
        let answer = reprinted::<MetaList>(alloc, text);
        says(&rt, alloc, answer, wanted);
    }
    for (text, wanted) in [
        ("a = \"b\"", "a = \"b\""),
        ("a", "unexpected end of input, expected `=` 0-0 0-0"),
    ] {
        let answer = reprinted::<MetaNameValue<Sample>>(alloc, text);
        says(&rt, alloc, answer, wanted);
    }
}

/// A meta, `=>`, and braces with nothing in them, as a `cfg_select` has them: the meta as it is printed.
fn arm(alloc: Global, input: &mut ParseStream<'_>) -> Result<String, Error> {
    let meta = input.parse::<Meta<Sample>>(alloc)?;
    let _ = input.parse::<FatArrow>(alloc)?;
    let (_, content) = input.braced(alloc)?;
    input.finish(content);
    printed(alloc, &meta)
}

fn two_arms(alloc: Global, input: &mut ParseStream<'_>) -> Result<String, Error> {
    let mut metas = arm(alloc, input)?;
    metas.push_str(" | ")?;
    metas.push_str(arm(alloc, input)?.as_str())?;
    Ok(metas)
}

fn arms(alloc: Global, text: &str) -> Result<String, Error> {
    let tokens = lex(alloc, text)?;
    read_all_with(alloc, ByFn(two_arms), &tokens)
}

#[test]
fn arms_are_read_in_turn(rt: HostRuntime) {
    let alloc = rt.alloc();
    for (text, wanted) in [
        (
            "target_os = \"linux\" => {} windows => {}",
            "target_os = \"linux\" | windows",
        ),
        (
            "all(a, b) => {} k = a::b + 1 => {}",
            "all (a , b) | k = a :: b + 1",
        ),
        ("a => {x} b => {}", "unexpected token 6-7 6-7"),
        ("a = 1 => {} b = {}", "expected identifier 16-17 16-17"),
        ("a == 1 => {} b => {}", "expected `=>` 2-3 2-3"),
    ] {
        says(&rt, alloc, arms(alloc, text), wanted);
    }
}

/// The properties of the arguments of an attribute at which a closure was called, and what was answered.
fn properties(alloc: Global, does: Does, text: &str) -> Result<String, Error> {
    let attr = last(alloc, outers(alloc, text))?;
    let mut calls = String::new(alloc);
    let logic = |alloc: Global, meta: &mut ParseNestedMeta<'_>| -> Result<(), Error> {
        called(meta, &mut calls)?;
        at_property(alloc, does, meta)
    };
    let answer = attr.parse_nested_meta(alloc, logic);
    show(answer, &mut calls)?;
    Ok(calls)
}

#[test]
fn a_closure_reads_the_arguments(rt: HostRuntime) {
    let alloc = rt.alloc();
    for (does, text, wanted) in [
        (Does::Values, "#[a()]", "ok"),
        (Does::Values, "#[a(true, fn = 1,)]", "true fn  ok"),
        (Does::Values, "#[form(min = -1, max = 200)]", "min max  ok"),
        (Does::Nothing, "#[a(b = 1)]", "b  expected `,` 6-7 6-7"),
        (Does::Refuses, "#[a(b, c)]", "b  no 4-5 4-5"),
        (
            Does::Descends,
            "#[a(b())]",
            "b  unexpected end of input, expected nested attribute 6-7 6-7",
        ),
        (Does::Descends, "#[a(b(c = 1, d))]", "b  ok"),
        (
            Does::Values,
            "#[a(5)]",
            "unexpected literal in nested attribute, expected ident 4-5 4-5",
        ),
        (
            Does::Values,
            "#[a(!)]",
            "unexpected token in nested attribute, expected ident 4-5 4-5",
        ),
        (
            Does::Values,
            "#[a]",
            "expected attribute arguments in parentheses: #[a(...)] 2-3 2-3",
        ),
        (
            Does::Values,
            "#[a = 2]",
            "expected parentheses: #[a(...)] 4-5 4-5",
        ),
    ] {
        says(&rt, alloc, properties(alloc, does, text), wanted);
    }
}
