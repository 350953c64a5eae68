//! The arguments of an attribute read by closures that do too little or too much: how often each is called, and what the read answers.

ghost use Rattle.token_core.specs.Reads.{Follows};

use crate::lists::{got, text_is};
use crate::nothing::Nothing;
use std::alloc::{AllocError, Global};
use std::fmt::Write;
use std::process::Abort;
use syn_mid::meta::ParseNestedMeta;
use syn_mid::{Attribute, Meta, ParseOuter};
use token_core::token::{Comma, Eq};
use token_core::{Error, Ident, Items, Lit, read_all_with};
use token_text::lex;

/// What a closure does at a property.
#[derive(Clone, Copy)]
enum Does {
    Nothing,
    Refuses,
    /// Reads all that is left.
    Everything,
    /// Reads a literal after `=`, where that stands.
    Values,
    /// Opens the parentheses, reads nothing in them, and finishes them or not.
    Finishes,
    Leaves,
}

#[tactic(auto, using(token_core::proofs::Suffixes::follows))]
fn open(alloc: Global, meta: &mut ParseNestedMeta<'_>, finishes: bool) -> Result<(), Error>
    ensures { Follows meta.old.input meta.new.input }
{
    let (_, content) = meta.input.parenthesized(alloc)?;
    if finishes {
        meta.input.finish(content);
    }
    Ok(())
}

#[tactic(auto, using(token_core::proofs::Suffixes::follows))]
fn value(alloc: Global, meta: &mut ParseNestedMeta<'_>) -> Result<(), Error>
    ensures { Follows meta.old.input meta.new.input }
{
    if meta.input.peek::<Eq>() {
        meta.value(alloc)?.parse::<Lit>(alloc)?;
    }
    Ok(())
}

#[tactic(auto, using(token_core::proofs::Suffixes::follows))]
fn everything(alloc: Global, meta: &mut ParseNestedMeta<'_>) -> Result<(), Error>
    ensures { Follows meta.old.input meta.new.input }
{
    value(alloc, meta)?;
    meta.input.parse::<Comma>(alloc)?;
    meta.input.parse::<Ident>(alloc)?;
    Ok(())
}

#[tactic(auto, using(token_core::proofs::Suffixes::follows))]
fn at_property(alloc: Global, does: Does, meta: &mut ParseNestedMeta<'_>) -> Result<(), Error>
    ensures { Follows meta.old.input meta.new.input }
{
    match does {
        Does::Nothing => Ok(()),
        Does::Refuses => Err(meta.error(alloc, "no")),
        Does::Everything => everything(alloc, meta),
        Does::Values => value(alloc, meta),
        Does::Finishes => open(alloc, meta, true),
        Does::Leaves => open(alloc, meta, false),
    }
}

fn told(answer: Result<(), Error>, calls: usize, out: &mut String) -> Result<(), AllocError> {
    match answer {
        Ok(()) => write!(out, "{calls} ok")?,
        Err(error) => write!(
            out,
            "{calls} {} {}-{}",
            error.text(),
            error.start().lo,
            error.end().hi
        )?,
    }
    Ok(())
}

/// The calls and the answer, by the attribute itself or by its list.
#[tactic(auto, using(token_core::proofs::Suffixes::follows))]
fn nested(
    alloc: Global,
    does: Does,
    attr: &Attribute<Nothing>,
    by_list: bool,
) -> Result<String, Error> {
    let mut calls: usize = 0;
    let logic = |alloc: Global, meta: &mut ParseNestedMeta<'_>| -> Result<(), Error>
        ensures { Follows meta.old.input meta.new.input }
    {
        calls = calls.saturating_add(1);
        at_property(alloc, does, meta)
    };
    let answer = match &attr.meta {
        Meta::List(list) if by_list => list.parse_nested_meta(alloc, logic),
        _ => attr.parse_nested_meta(alloc, logic),
    };
    let mut out = String::new(alloc);
    told(answer, calls, &mut out)?;
    Ok(out)
}

fn attributes(alloc: Global, text: &str) -> Result<Items<Attribute<Nothing>>, Error> {
    read_all_with(alloc, ParseOuter::<Nothing>::new(), &lex(alloc, text)?)
}

fn nested_is(rt: &impl Abort, alloc: Global, does: Does, text: &str, wanted: &str) {
    let attrs = got(rt, attributes(alloc, text));
    for attr in attrs.iter() {
        for by_list in [false, true] {
            let out = got(rt, nested(alloc, does, attr, by_list));
            text_is(rt, out.as_str(), wanted);
        }
    }
}

#[test]
fn careless_closures_are_found(rt: HostRuntime) {
    for (does, text, wanted) in [
        (Does::Nothing, "#[a(b = 1, c)]", "1 expected `,` 6-7"),
        (Does::Refuses, "#[a(b = 1, c)]", "1 no 4-5"),
        (Does::Everything, "#[a(b = 1, c)]", "1 ok"),
        (Does::Values, "#[a(b = 1, c)]", "2 ok"),
        (Does::Finishes, "#[a(b(x))]", "1 unexpected token 6-7"),
        (Does::Leaves, "#[a(b(x))]", "1 ok"),
    ] {
        nested_is(&rt, rt.alloc(), does, text, wanted);
    }
}
