//! Nested properties read by closures, careful ones and careless ones.

use std::alloc::{AllocError, Global};
use std::fmt::Write;
use std::test::Fail;
use syn_mid::meta::{ParseNestedMeta, parser};
use token_core::token::{Comma, Eq};
use token_core::{Error, Ident, Lit, read_all_with};
use token_text::lex;

/// What a closure does at a property.
#[derive(Clone, Copy)]
pub(crate) enum Does {
    /// Reads a literal after `=`, where one stands.
    Values,
    /// Reads properties in parentheses, with such values.
    Descends,
    /// Reads nothing.
    Nothing,
    /// Answers its own error at once, or after a value.
    Refuses,
    RefusesLate,
    /// Reads all of `= 1, c`.
    Everything,
    /// Opens parentheses, reads nothing in them, and finishes them or not.
    Finishes,
    Leaves,
}

fn value(alloc: Global, meta: &mut ParseNestedMeta<'_>) -> Result<(), Error> {
    if meta.input.peek::<Eq>() {
        meta.value(alloc)?.parse::<Lit>(alloc)?;
    }
    Ok(())
}

fn descend(alloc: Global, meta: &mut ParseNestedMeta<'_>) -> Result<(), Error> {
    let logic = |alloc: Global, inner: &mut ParseNestedMeta<'_>| -> Result<(), Error> {
        value(alloc, inner)
    };
    meta.parse_nested_meta(alloc, logic)
}

fn everything(alloc: Global, meta: &mut ParseNestedMeta<'_>) -> Result<(), Error> {
    value(alloc, meta)?;
    meta.input.parse::<Comma>(alloc)?;
    meta.input.parse::<Ident>(alloc)?;
    Ok(())
}

fn open(alloc: Global, meta: &mut ParseNestedMeta<'_>, finishes: bool) -> Result<(), Error> {
    let (_, content) = meta.input.parenthesized(alloc)?;
    if finishes {
        meta.input.finish(content);
    }
    Ok(())
}

pub(crate) fn at_property(
    alloc: Global,
    does: Does,
    meta: &mut ParseNestedMeta<'_>,
) -> Result<(), Error> {
    match does {
        Does::Values => value(alloc, meta),
        Does::Descends => descend(alloc, meta),
        Does::Nothing => Ok(()),
        Does::Refuses => Err(meta.error(alloc, "no")),
        Does::RefusesLate => {
            value(alloc, meta)?;
            Err(meta.error(alloc, "no"))
        }
        Does::Everything => everything(alloc, meta),
        Does::Finishes => open(alloc, meta, true),
        Does::Leaves => open(alloc, meta, false),
    }
}

pub(crate) fn show(answer: Result<(), Error>, out: &mut String) -> Result<(), AllocError> {
    match answer {
        Ok(()) => out.push_str(" ok")?,
        Err(error) => {
            let (start, end) = (error.start(), error.end());
            write!(
                out,
                " {} {}-{} {}-{}",
                error.text(),
                start.lo,
                start.hi,
                end.lo,
                end.hi
            )?;
        }
    }
    Ok(())
}

/// Appends the first identifier of a property's path.
pub(crate) fn called(meta: &ParseNestedMeta<'_>, calls: &mut String) -> Result<(), AllocError> {
    if let Some(segment) = meta.path.segments.first() {
        write!(calls, "{} ", segment.ident.text())?;
    }
    Ok(())
}

/// The paths of the properties that the closure was called at, and what the whole read answered.
fn nested(alloc: Global, does: Does, text: &str) -> Result<String, Error> {
    let tokens = lex(alloc, text)?;
    let mut calls = String::new(alloc);
    let logic = |alloc: Global, meta: &mut ParseNestedMeta<'_>| -> Result<(), Error> {
        called(meta, &mut calls)?;
        at_property(alloc, does, meta)
    };
    let answer = read_all_with(alloc, parser(logic), &tokens);
    show(answer, &mut calls)?;
    Ok(calls)
}

#[test]
fn a_closure_is_called_at_each_property(rt: HostRuntime) -> Result<(), Fail> {
    let rows = [
        (Does::Values, "", " ok"),
        (Does::Values, "true, fn = true,", "true fn  ok"),
        (Does::Values, "a, b c", "a b  expected `,` 5-6 5-6"),
        (Does::Nothing, "b = true, c", "b  expected `,` 2-3 2-3"),
        (Does::Everything, "b = true, c", "b  ok"),
        (Does::Refuses, "b = true", "b  no 0-1 0-1"),
        (Does::RefusesLate, "b = true", "b  no 0-1 4-8"),
        (
            Does::Descends,
            "b()",
            "b  unexpected end of input, expected nested attribute 2-3 2-3",
        ),
        (Does::Descends, "b(c, d = false)", "b  ok"),
        (Does::Finishes, "b(x)", "b  unexpected token 2-3 2-3"),
        (Does::Leaves, "b(x)", "b  ok"),
        (
            Does::Values,
            "::",
            " unexpected end of input, expected nested attribute 0-0 0-0",
        ),
        (Does::Values, "::true", "true  ok"),
        (Does::Values, "b::!", " expected identifier 3-4 3-4"),
        (
            Does::Values,
            "!",
            " unexpected token in nested attribute, expected ident 0-1 0-1",
        ),
        (
            Does::Values,
            "5",
            " unexpected literal in nested attribute, expected ident 0-1 0-1",
        ),
        (
            Does::Values,
            "::5",
            " unexpected literal in nested attribute, expected ident 2-3 2-3",
        ),
        (Does::Values, "b::5", " expected identifier 3-4 3-4"),
        (Does::Values, "min = -1, max = 200", "min max  ok"),
        (Does::RefusesLate, "b = 1", "b  no 0-1 4-5"),
    ];
    for (does, text, want) in rows {
        match nested(rt.alloc(), does, text) {
            Ok(got) => assert_eq!(rt; got.as_str(), want, "{text}"),
            Err(_) => assert!(rt; false, "{text}"),
        }
    }
    Ok(())
}
