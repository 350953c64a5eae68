//! A supplied reader that always answers its own refusal: it comes out as it is, from each place where one stands.

use crate::lists::text_is;
use crate::nothing::Nothing;
use std::alloc::{AllocError, Global};
use std::fmt::Write;
use std::process::Abort;
use syn_mid::{
    Attribute, ConstParam, GenericArgument, Generics, Meta, MetaNameValue, ParseInner, ParseMulti,
    ParseMultiWithLeadingVertAndGuard, ParseOuter, ParseSingle, Path, Type, WhereClause,
};
use token_core::{Error, ErrorKind, Items, Parse, Parser, read_all, read_all_with};
use token_text::lex;

fn told<T: Drop>(answer: Result<T, Error>, out: &mut String) -> Result<(), AllocError> {
    match answer {
        Ok(_) => write!(out, "read")?,
        Err(error) => {
            if error.kind() == ErrorKind::Custom {
                write!(out, "own ")?;
            }
            write!(
                out,
                "{} {}-{}",
                error.text(),
                error.start().lo,
                error.end().hi
            )?;
        }
    }
    Ok(())
}

fn of<T: Parse + Drop>(alloc: Global, text: &str) -> Result<T, Error> {
    read_all::<T>(alloc, &lex(alloc, text)?)
}

fn by<P: Parser + Drop>(alloc: Global, parser: P, text: &str) -> Result<P::Output, Error> {
    read_all_with(alloc, parser, &lex(alloc, text)?)
}

/// The read answers the supplied reader's refusal, at this place.
fn says_no<T: Drop>(rt: &impl Abort, alloc: Global, answer: Result<T, Error>, place: &str) {
    let mut out = String::new(alloc);
    match told(answer, &mut out) {
        Ok(()) => text_is(rt, out.as_str(), place),
        Err(_) => text_is(rt, "out of memory", place),
    }
}

#[test]
fn a_supplied_refusal_comes_out_as_it_is(rt: HostRuntime) {
    let alloc = rt.alloc();
    says_no(
        &rt,
        alloc,
        of::<Type<Nothing>>(alloc, "[u8; a]"),
        "own no 5-6",
    );
    says_no(
        &rt,
        alloc,
        of::<Type<Nothing>>(alloc, "Vec<(A, [u8; a b])>"),
        "own no 13-14",
    );
    says_no(
        &rt,
        alloc,
        of::<Path<Nothing>>(alloc, "A<{ b }>"),
        "own no 4-5",
    );
    says_no(
        &rt,
        alloc,
        of::<GenericArgument<Nothing>>(alloc, "A = { b }"),
        "own no 6-7",
    );
    says_no(
        &rt,
        alloc,
        of::<Meta<Nothing>>(alloc, "k = a"),
        "own no 4-5",
    );
    says_no(
        &rt,
        alloc,
        of::<MetaNameValue<Nothing>>(alloc, "k = a b"),
        "own no 4-5",
    );
    says_no(
        &rt,
        alloc,
        of::<ConstParam<Nothing>>(alloc, "const N: A = { b }"),
        "own no 15-16",
    );
    says_no(
        &rt,
        alloc,
        of::<Generics<Nothing>>(alloc, "<T, #[k = a] U>"),
        "own no 10-11",
    );
    says_no(
        &rt,
        alloc,
        of::<WhereClause<Nothing>>(alloc, "where [A; b]: C"),
        "own no 10-11",
    );
    says_no(
        &rt,
        alloc,
        by(alloc, ParseSingle::<Nothing>::new(), "const { a }"),
        "own no 8-9",
    );
    says_no(
        &rt,
        alloc,
        by(alloc, ParseMulti::<Nothing>::new(), "x | (y, const { a })"),
        "own no 16-17",
    );
    let guarded = ParseMultiWithLeadingVertAndGuard::<Nothing>::new();
    says_no(&rt, alloc, by(alloc, guarded, "x if a"), "own no 5-6");
    let outer = by(alloc, ParseOuter::<Nothing>::new(), "#[a] #[k = a]");
    says_no::<Items<Attribute<Nothing>>>(&rt, alloc, outer, "own no 11-12");
    let inner = by(alloc, ParseInner::<Nothing>::new(), "#![k = a]");
    says_no::<Items<Attribute<Nothing>>>(&rt, alloc, inner, "own no 7-8");
}
