//! What qualified paths made by hand print, whole and with segments taken off their ends.

use crate::generics_tests::{both, holds, path, printed, prints_as, says, shown, ty};
use crate::nothing::Nothing;
use crate::pat_tests::boxed;
use std::alloc::Global;
use std::fmt::Write;
use syn_mid::{Path, QSelf, QSelfOf, Type, TypePath, TypePathOf};
use token_core::token::{As, Gt, Lt};
use token_core::{Error, Items, Span, Spanned, read_all};
use token_text::lex;

/// A path without its last segments.
fn popped(alloc: Global, text: &str, times: u8) -> Result<Path<Nothing>, Error> {
    let mut path = path(alloc, text)?;
    for _ in 0..times {
        let _last = path.segments.pop();
    }
    Ok(path)
}

/// `<Self as ..>`, with `>` after as many segments, and without `as` where it is left to the print.
pub(crate) fn qself(
    alloc: Global,
    position: usize,
    as_token: Option<As>,
) -> Result<QSelf<Nothing>, Error> {
    Ok(QSelfOf {
        lt_token: Lt::default(),
        ty: boxed(alloc, ty(alloc, "Self"))?,
        position,
        as_token,
        gt_token: Gt::default(),
    })
}

pub(crate) fn qualified(
    alloc: Global,
    qself: Result<QSelf<Nothing>, Error>,
    path: Result<Path<Nothing>, Error>,
) -> Result<Type<Nothing>, Error> {
    let (qself, path) = both(qself, path)?;
    Ok(Type::from(TypePathOf {
        attrs: Items::new(alloc),
        qself: Some(qself),
        path,
    }))
}

fn plain(alloc: Global, path: Result<Path<Nothing>, Error>) -> Result<Type<Nothing>, Error> {
    Ok(Type::from(TypePathOf {
        attrs: Items::new(alloc),
        qself: None,
        path: path?,
    }))
}

/// `<Self as A>::Q` without its last segments
fn of_a_trait(alloc: Global, times: u8) -> Result<String, Error> {
    let qself = qself(alloc, 1, Some(As::default()));
    shown(alloc, qualified(alloc, qself, popped(alloc, "A::Q", times)))
}

/// `<Self>::A::B` without its last segments
fn of_a_type(alloc: Global, times: u8) -> Result<String, Error> {
    let qself = qself(alloc, 0, None);
    shown(
        alloc,
        qualified(alloc, qself, popped(alloc, "::A::B", times)),
    )
}

/// `Self::A::B` without its last segments
fn of_none(alloc: Global, times: u8) -> Result<String, Error> {
    shown(alloc, plain(alloc, popped(alloc, "Self::A::B", times)))
}

#[test]
fn paths_of_a_trait_print(rt: HostRuntime) {
    let alloc = rt.alloc();
    says(&rt, of_a_trait(alloc, 0), "< Self as A > :: Q");
    says(&rt, of_a_trait(alloc, 1), "< Self as A > ::");
    says(&rt, of_a_trait(alloc, 2), "< Self >");
}

#[test]
fn paths_of_a_type_print(rt: HostRuntime) {
    let alloc = rt.alloc();
    says(&rt, of_a_type(alloc, 0), "< Self > :: A :: B");
    says(&rt, of_a_type(alloc, 1), "< Self > :: A ::");
    says(&rt, of_a_type(alloc, 2), "< Self > ::");
}

#[test]
fn plain_paths_print(rt: HostRuntime) {
    let alloc = rt.alloc();
    says(&rt, of_none(alloc, 0), "Self :: A :: B");
    says(&rt, of_none(alloc, 1), "Self :: A ::");
    says(&rt, of_none(alloc, 2), "Self ::");
    says(&rt, of_none(alloc, 3), "");
}

/// What is left of a text's qualified path once its last segments are taken off.
fn read_without(alloc: Global, text: &str, times: u8) -> Result<String, Error> {
    let mut ty: TypePath<Nothing> = read_all(alloc, &lex(alloc, text)?)?;
    for _ in 0..times {
        let _last = ty.path.segments.pop();
    }
    printed(alloc, &ty)
}

#[test]
fn paths_that_are_read_print_without_their_last_segments(rt: HostRuntime) {
    let alloc = rt.alloc();
    for (text, times, wanted) in [
        ("<Self as A>::Q", 0, "< Self as A > :: Q"),
        ("<Self as A>::Q", 1, "< Self as A > ::"),
        ("<Self as A>::Q", 2, "< Self >"),
        ("<Self>::A::B", 1, "< Self > :: A ::"),
        ("<Self>::A::B", 2, "< Self > ::"),
        ("Self::A::B", 1, "Self :: A ::"),
        ("Self::A::B", 2, "Self ::"),
        ("Self::A::B", 3, ""),
    ] {
        says(&rt, read_without(alloc, text, times), wanted);
    }
}

/// Where `<Self>` stands, its `<` at 3 and its `>` at 8.
fn stands(alloc: Global) -> Result<bool, Error> {
    let mut qself = qself(alloc, 0, None)?;
    qself.lt_token.spans = [Span::new(3, 4)];
    qself.gt_token.spans = [Span::new(8, 9)];
    Ok(qself.span() == Span::new(3, 9))
}

#[test]
fn a_qualifying_type_stands_from_mark_to_mark(rt: HostRuntime) {
    let alloc = rt.alloc();
    holds(&rt, stands(alloc));
}

/// `<Self as ..>` with `>` after as many segments of this path, and `as` left to the print.
fn at(alloc: Global, position: usize, text: &str) -> Result<String, Error> {
    let qself = qself(alloc, position, None);
    shown(alloc, qualified(alloc, qself, path(alloc, text)))
}

#[test]
fn the_closing_mark_stands_by_its_position(rt: HostRuntime) {
    let alloc = rt.alloc();
    says(&rt, at(alloc, 0, "A::B::C"), "< Self > A :: B :: C");
    says(&rt, at(alloc, 1, "A::B::C"), "< Self as A > :: B :: C");
    says(&rt, at(alloc, 2, "A::B::C"), "< Self as A :: B > :: C");
    says(&rt, at(alloc, 3, "::A::B::C"), "< Self as :: A :: B :: C >");
    says(&rt, at(alloc, 3, "A"), "< Self as A >");
}

/// `<<T>::A>::A`, as often as wanted
fn nested(alloc: Global, times: u8) -> Result<Type<Nothing>, Error> {
    let mut inner = ty(alloc, "T")?;
    for _ in 0..times {
        let (boxed, path) = both(boxed(alloc, Ok(inner)), path(alloc, "::A"))?;
        inner = Type::from(TypePathOf {
            attrs: Items::new(alloc),
            qself: Some(QSelfOf {
                lt_token: Lt::default(),
                ty: boxed,
                position: 0,
                as_token: None,
                gt_token: Gt::default(),
            }),
            path,
        });
    }
    Ok(inner)
}

fn nested_text(alloc: Global, times: u8) -> Result<String, Error> {
    let mut out = String::new(alloc);
    for _ in 0..times {
        write!(out, "< ")?;
    }
    write!(out, "T")?;
    for _ in 0..times {
        write!(out, " > :: A")?;
    }
    Ok(out)
}

#[test]
fn deeply_qualified_paths_print(rt: HostRuntime) {
    let alloc = rt.alloc();
    says(&rt, shown(alloc, nested(alloc, 1)), "< T > :: A");
    let deep = nested(alloc, 200);
    let wanted = nested_text(alloc, 200);
    holds(&rt, prints_as(alloc, deep, wanted));
}
