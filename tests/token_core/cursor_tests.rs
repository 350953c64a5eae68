//! Positions in a buffer, across the groups of it.

use crate::core_tests::{buffer_of, got, is, made, text_is, tokens};
use crate::stream_tests::some;
use std::alloc::{AllocError, Global};
use std::process::Abort;
use token_core::{Cursor, ParseStream, Span, TokenStream, TokenTree, verbatim};

/// Goes on by so many steps: into a group where one stands, out of it at its end, else past the tree that stands there.
fn walk<'a>(begin: &Cursor<'a>, steps: usize) -> Option<Cursor<'a>> {
    let mut at = begin.again();
    for _ in 0..steps {
        at = step(&at)?;
    }
    Some(at)
}

fn step<'a>(at: &Cursor<'a>) -> Option<Cursor<'a>> {
    if let Some(inside) = at.enter() {
        return Some(inside);
    }
    match at.tree() {
        Some((_, after)) => Some(after),
        None => at.leave(),
    }
}

fn stands<'a>(rt: &impl Abort, begin: &Cursor<'a>, steps: usize) -> Cursor<'a> {
    some(rt, walk(begin, steps))
}

/// The identifier that stands there.
fn name<'a>(at: &Cursor<'a>) -> &'a str {
    match at.tree() {
        Some((TokenTree::Ident(ident), _)) => ident.text(),
        Some((_, _)) => "a tree",
        None => "none",
    }
}

#[test]
fn groups_are_entered_and_left(rt: HostRuntime) {
    let alloc = rt.alloc();
    let list = tokens(&rt, alloc, "a ( b ^ c $ ) d");
    let buffer = buffer_of(&rt, alloc, &list);
    let begin = buffer.begin();
    let names = [
        "a", "a tree", "b", "a tree", "c", "none", "none", "d", "none",
    ];
    for (steps, text) in names.into_iter().enumerate() {
        let at = stands(&rt, &begin, steps);
        text_is(&rt, name(&at), text);
        let ends = (steps == 5) | (steps == 6);
        is(&rt, at.leave().is_some() == ends, "the end of a group");
        let begins = (steps == 1) | (steps == 3);
        is(&rt, at.enter().is_some() == begins, "a group");
    }
    is(&rt, walk(&begin, 9).is_none(), "the end of the buffer");
}

#[test]
fn positions_have_an_order(rt: HostRuntime) {
    let alloc = rt.alloc();
    let list = tokens(&rt, alloc, "a ( b ^ c $ ) d");
    let buffer = buffer_of(&rt, alloc, &list);
    let begin = buffer.begin();
    for i in 0..9usize {
        for j in 0..9usize {
            let first = stands(&rt, &begin, i);
            let second = stands(&rt, &begin, j);
            is(&rt, first.is_before(&second) == (i < j), "their order");
        }
    }
}

fn same(rt: &impl Abort, one: &Cursor<'_>, other: &Cursor<'_>) {
    let apart = one.is_before(other) | other.is_before(one);
    is(rt, !apart, "the same position");
}

#[test]
fn streams_know_what_follows(rt: HostRuntime) {
    let alloc = rt.alloc();
    let list = tokens(&rt, alloc, "a ( b ^ c $ ) d");
    let buffer = buffer_of(&rt, alloc, &list);
    let begin = buffer.begin();
    let mut input = ParseStream::new(&buffer, Span::none());
    same(&rt, &input.cursor(), &begin);
    drop(got(&rt, input.read_ident(alloc)));
    let (_, mut inside) = got(&rt, input.parenthesized(alloc));
    same(&rt, &input.cursor(), &stands(&rt, &begin, 7));
    same(&rt, &inside.cursor(), &stands(&rt, &begin, 2));
    drop(got(&rt, inside.read_ident(alloc)));
    let (_, inner) = got(&rt, inside.invisible(alloc));
    same(&rt, &inside.cursor(), &stands(&rt, &begin, 6));
    same(&rt, &inner.cursor(), &stands(&rt, &begin, 4));
    text_is(&rt, name(&stands(&rt, &inner.cursor(), 3)), "d");
}

/// The trees from a position up to the second of a group that stands after the first tree, and from there to the end of the tree
/// after the group.
fn cut(
    alloc: Global,
    begin: &Cursor<'_>,
) -> Result<Option<(TokenStream, TokenStream)>, AllocError> {
    let Some((_, group)) = begin.tree() else {
        return Ok(None);
    };
    let Some(inside) = group.enter() else {
        return Ok(None);
    };
    let Some((_, second)) = inside.tree() else {
        return Ok(None);
    };
    let front = verbatim::between(alloc, begin, &second)?;
    let Some((_, bound)) = second.tree() else {
        return Ok(None);
    };
    let Some(after) = bound.leave() else {
        return Ok(None);
    };
    Ok(Some((front, verbatim::between(alloc, &second, &after)?)))
}

fn is_cut(rt: &impl Abort, alloc: Global, text: &str) {
    let list = tokens(rt, alloc, text);
    let buffer = buffer_of(rt, alloc, &list);
    let (front, back) = some(rt, made(rt, cut(alloc, &buffer.begin())));
    is(rt, front.same(&tokens(rt, alloc, "a b")), text);
    is(rt, back.same(&tokens(rt, alloc, "c")), text);
}

#[test]
fn crossing_groups_are_entered(rt: HostRuntime) {
    let alloc = rt.alloc();
    is_cut(&rt, alloc, "a ( b c ) d");
    is_cut(&rt, alloc, "a ^ b c $ d");
}
