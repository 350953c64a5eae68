//! Tokens that stand where an expression may stand: by their places, and as they stand in invisible groups.

ghost use Rattle.token_core.specs.Reads.{Follows};

use crate::lists::{got, is, put_group};
use std::alloc::{AllocError, Global};
use std::fmt::Write;
use std::process::Abort;
use syn_mid::verbatim::{MetaNameValue, ParseMultiWithLeadingVertAndGuard, ParseOuter, Type};
use syn_mid::{Place, Subtree, VerbatimExpr};
use token_core::{
    ByFn, Delimiter, Error, Ident, ParseStream, ToTokens, TokenStream, read_all, read_all_with,
};
use token_text::{lex, text_of};

/// What was answered, or the refusal's text and place.
fn told(alloc: Global, answer: Result<String, Error>) -> Result<String, AllocError> {
    match answer {
        Ok(text) => Ok(text),
        Err(error) => {
            let (start, end) = (error.start(), error.end());
            let mut out = String::new(alloc);
            write!(
                out,
                "{} {}-{} {}-{}",
                error.text(),
                start.lo,
                start.hi,
                end.lo,
                end.hi
            )?;
            Ok(out)
        }
    }
}

/// It answers this; of a refusal, its text and place.
pub(crate) fn says(rt: &impl Abort, alloc: Global, answer: Result<String, Error>, wanted: &str) {
    match told(alloc, answer) {
        Ok(text) => assert_eq!(rt; text.trim(), wanted),
        Err(_) => panic!(rt; "out of memory"),
    }
}

pub(crate) fn printed<T: ToTokens>(alloc: Global, tree: &T) -> Result<String, Error> {
    let mut out = TokenStream::new(alloc);
    tree.to_tokens(alloc, &mut out)?;
    Ok(text_of(alloc, &out)?)
}

// ---- in each place

#[tactic(auto, using(token_core::proofs::Suffixes::follows))]
fn length(alloc: Global, input: &mut ParseStream<'_>) -> Result<VerbatimExpr, Error>
    ensures { Follows input.old input.new }
{
    VerbatimExpr::read(alloc, Place::ArrayLen, input)
}

#[tactic(auto, using(token_core::proofs::Suffixes::follows))]
fn value(alloc: Global, input: &mut ParseStream<'_>) -> Result<VerbatimExpr, Error>
    ensures { Follows input.old input.new }
{
    VerbatimExpr::read(alloc, Place::Value, input)
}

#[tactic(auto, using(token_core::proofs::Suffixes::follows))]
fn guard(alloc: Global, input: &mut ParseStream<'_>) -> Result<VerbatimExpr, Error>
    ensures { Follows input.old input.new }
{
    VerbatimExpr::read(alloc, Place::Guard, input)
}

#[tactic(auto, using(token_core::proofs::Suffixes::follows))]
fn block(alloc: Global, input: &mut ParseStream<'_>) -> Result<VerbatimExpr, Error>
    ensures { Follows input.old input.new }
{
    VerbatimExpr::read(alloc, Place::Block, input)
}

fn as_length(alloc: Global, text: &str) -> Result<String, Error> {
    let tokens = lex(alloc, text)?;
    printed(alloc, &read_all_with(alloc, ByFn(length), &tokens)?)
}

fn as_value(alloc: Global, text: &str) -> Result<String, Error> {
    let tokens = lex(alloc, text)?;
    printed(alloc, &read_all_with(alloc, ByFn(value), &tokens)?)
}

fn as_guard(alloc: Global, text: &str) -> Result<String, Error> {
    let tokens = lex(alloc, text)?;
    printed(alloc, &read_all_with(alloc, ByFn(guard), &tokens)?)
}

fn as_block(alloc: Global, text: &str) -> Result<String, Error> {
    let tokens = lex(alloc, text)?;
    printed(alloc, &read_all_with(alloc, ByFn(block), &tokens)?)
}

#[test]
fn all_tokens_are_held(rt: HostRuntime) {
    let alloc = rt.alloc();
    for (text, wanted) in [
        ("a", "a"),
        ("if", "if"),
        ("-", "-"),
        ("'a", "'a"),
        (
            "match x { 1 ..= 2 => 'a: loop {}, _ => b\"c\" }",
            "match x { 1 ..= 2 => 'a : loop { } , _ => b\"c\" }",
        ),
        ("a << -1.5e3", "a << - 1.5e3"),
        ("# [b] c", "# [b] c"),
    ] {
        says(&rt, alloc, as_length(alloc, text), wanted);
        says(&rt, alloc, as_guard(alloc, text), wanted);
        says(&rt, alloc, as_block(alloc, text), wanted);
    }
}

#[test]
fn nothing_is_refused_but_in_a_block(rt: HostRuntime) {
    let alloc = rt.alloc();
    let wanted = "unexpected end of input, expected an expression 0-0 0-0";
    says(&rt, alloc, as_length(alloc, ""), wanted);
    says(&rt, alloc, as_value(alloc, ""), wanted);
    says(&rt, alloc, as_guard(alloc, ""), wanted);
    says(&rt, alloc, as_block(alloc, ""), "");
}

#[test]
fn values_are_no_literal_and_no_attribute(rt: HostRuntime) {
    let alloc = rt.alloc();
    for (text, wanted) in [
        ("1 + 2", "1 + 2"),
        ("1.x", "1 . x"),
        ("- a", "- a"),
        ("true && false", "true && false"),
        ("#", "#"),
        ("# b", "# b"),
        ("1", "expected an expression 0-1 0-1"),
        ("-1", "expected an expression 0-1 0-1"),
        ("true", "expected an expression 0-4 0-4"),
        ("#[b]", "expected an expression 0-1 0-1"),
        ("# [b] c", "expected an expression 0-1 0-1"),
    ] {
        says(&rt, alloc, as_value(alloc, text), wanted);
    }
}

// ---- in the trees that hold them

fn in_type(alloc: Global, text: &str) -> Result<String, Error> {
    let tokens = lex(alloc, text)?;
    printed(alloc, &read_all::<Type>(alloc, &tokens)?)
}

fn in_meta(alloc: Global, text: &str) -> Result<String, Error> {
    let tokens = lex(alloc, text)?;
    printed(alloc, &read_all::<MetaNameValue>(alloc, &tokens)?)
}

fn in_attributes(alloc: Global, text: &str) -> Result<String, Error> {
    let tokens = lex(alloc, text)?;
    printed(alloc, &read_all_with(alloc, ParseOuter::new(), &tokens)?)
}

fn in_pattern(alloc: Global, text: &str) -> Result<String, Error> {
    let tokens = lex(alloc, text)?;
    let pattern = read_all_with(alloc, ParseMultiWithLeadingVertAndGuard::new(), &tokens)?;
    printed(alloc, &pattern)
}

#[test]
fn trees_hold_tokens(rt: HostRuntime) {
    let alloc = rt.alloc();
    says(
        &rt,
        alloc,
        in_type(alloc, "A<{ f(1) }, [B; 2 * (C + 1)]>"),
        "A < { f (1) } , [B ; 2 * (C + 1)] >",
    );
    says(
        &rt,
        alloc,
        in_type(alloc, "[B; ]"),
        "unexpected end of input, expected an expression 4-5 4-5",
    );
    says(&rt, alloc, in_meta(alloc, "a = b(c)?"), "a = b (c) ?");
    says(&rt, alloc, in_meta(alloc, "a = -1"), "a = - 1");
    says(
        &rt,
        alloc,
        in_attributes(alloc, "#[a = x.y] #[b(c)]"),
        "# [a = x . y] # [b (c)]",
    );
    says(
        &rt,
        alloc,
        in_pattern(alloc, "Some(x) | None if x > 1 && y"),
        "Some (x) | None if x > 1 && y",
    );
}

// ---- in invisible groups

/// An invisible group with a text in it, and then a text.
fn hidden(alloc: Global, inside: &str, after: &str) -> Result<TokenStream, Error> {
    let mut out = TokenStream::new(alloc);
    put_group(alloc, Delimiter::None, inside, &mut out)?;
    let more = lex(alloc, after)?;
    for tree in more.trees() {
        out.push(tree.copy(alloc)?)?;
    }
    Ok(out)
}

/// What is left after an identifier.
#[tactic(auto, using(token_core::proofs::Suffixes::follows))]
fn after_ident(alloc: Global, input: &mut ParseStream<'_>) -> Result<VerbatimExpr, Error>
    ensures { Follows input.old input.new }
{
    input.parse::<Ident>(alloc)?;
    VerbatimExpr::read(alloc, Place::Guard, input)
}

fn held(alloc: Global, inside: &str, after: &str) -> Result<VerbatimExpr, Error> {
    let tokens = hidden(alloc, inside, after)?;
    read_all_with(alloc, ByFn(length), &tokens)
}

fn held_in_part(alloc: Global, inside: &str, after: &str) -> Result<VerbatimExpr, Error> {
    let tokens = hidden(alloc, inside, after)?;
    read_all_with(alloc, ByFn(after_ident), &tokens)
}

fn value_in_group(alloc: Global, inside: &str, after: &str) -> Result<String, Error> {
    let tokens = hidden(alloc, inside, after)?;
    printed(alloc, &read_all_with(alloc, ByFn(value), &tokens)?)
}

#[test]
fn an_invisible_group_is_held_whole(rt: HostRuntime) {
    let alloc = rt.alloc();
    let whole = got(&rt, held(alloc, "a b", "* 2"));
    is(
        &rt,
        whole.tokens.len() == 3,
        "the group, the mark and the literal",
    );
    let again = got(&rt, read_all_with(alloc, ByFn(length), &whole.tokens));
    is(
        &rt,
        again.tokens.same(&whole.tokens),
        "what is held is read again",
    );
    let empty = got(&rt, held(alloc, "", "a"));
    is(
        &rt,
        empty.tokens.len() == 2,
        "an empty group, and the identifier",
    );
}

#[test]
fn what_is_left_of_an_invisible_group_is_held(rt: HostRuntime) {
    let alloc = rt.alloc();
    let part = got(&rt, held_in_part(alloc, "a b ! c", "* 2"));
    is(
        &rt,
        part.tokens.len() == 5,
        "three tokens of the group, and two after it",
    );
    let rest = got(&rt, held_in_part(alloc, "a", "* 2"));
    is(&rt, rest.tokens.len() == 2, "the tokens after the group");
}

#[test]
fn an_invisible_group_is_seen_through(rt: HostRuntime) {
    let alloc = rt.alloc();
    let none = held(alloc, "", "").is_err();
    is(&rt, none, "an empty group is no token");
    let wanted = "expected an expression 0-4 0-4";
    says(&rt, alloc, value_in_group(alloc, "true", ""), wanted);
    says(
        &rt,
        alloc,
        value_in_group(alloc, "true", "&& a"),
        "\\(true\\) && a",
    );
    says(&rt, alloc, value_in_group(alloc, "", "[a]"), "\\(\\) [a]");
}
