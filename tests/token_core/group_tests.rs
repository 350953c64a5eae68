//! Groups with a list of their own and groups that share theirs: copies are equal, and a list that is changed is no other's.

use crate::core_tests::{is, made, nth, tokens};
use std::alloc::Global;
use std::mem;
use std::process::Abort;
use token_core::{DelimSpan, Delimiter, Group, TokenStream, TokenTree};
use token_text::text_of;

fn span() -> DelimSpan {
    DelimSpan::new(nth(0), nth(9))
}

fn group(rt: &impl Abort, alloc: Global, text: &str, shared: bool) -> Group {
    let content = tokens(rt, alloc, text);
    if shared {
        made(rt, Group::shared(alloc, Delimiter::Brace, content, span()))
    } else {
        Group::new(Delimiter::Brace, content, span())
    }
}

fn holds(rt: &impl Abort, alloc: Global, group: &Group, text: &str) {
    is(rt, group.delimiter() == Delimiter::Brace, "braces");
    is(rt, group.delim_span() == span(), "its span");
    is(rt, group.stream().same(&tokens(rt, alloc, text)), text);
}

/// Copies of copies hold the same, when those before them are gone too.
fn copies_hold(rt: &impl Abort, alloc: Global, text: &str, shared: bool) {
    let first = group(rt, alloc, text, shared);
    holds(rt, alloc, &first, text);
    let second = made(rt, first.copy(alloc));
    let third = made(rt, second.copy(alloc));
    holds(rt, alloc, &first, text);
    mem::drop(first);
    holds(rt, alloc, &second, text);
    mem::drop(second);
    holds(rt, alloc, &third, text);
}

/// A copy of what a group holds may be changed; the group stays.
fn lists_are_apart(rt: &impl Abort, alloc: Global, text: &str, shared: bool) {
    let group = group(rt, alloc, text, shared);
    let mut list = made(rt, group.stream().copy(alloc));
    let n = list.len();
    let more = made(rt, group.copy(alloc));
    made(rt, list.push(TokenTree::Group(more)));
    is(rt, list.len() == n + 1, "one tree more");
    holds(rt, alloc, &group, text);
    list.truncate(n);
    is(rt, list.same(group.stream()), "as before");
    list.truncate(0);
    is(rt, list.is_empty(), "none is left");
    holds(rt, alloc, &group, text);
}

/// A list of this group alone.
fn alone(rt: &impl Abort, alloc: Global, group: Group) -> TokenStream {
    let mut list = TokenStream::new(alloc);
    made(rt, list.push(TokenTree::Group(group)));
    list
}

fn are_the_same(rt: &impl Abort, alloc: Global, list: &TokenStream, other: &TokenStream) {
    is(rt, list.same(other) & other.same(list), "the same");
    let text = made(rt, text_of(alloc, list));
    let others = made(rt, text_of(alloc, other));
    is(rt, text.as_str() == others.as_str(), "the same text");
}

/// A group that shares its list is the same as one with its own, and so are copies of both.
fn own_is_as_shared(rt: &impl Abort, alloc: Global, text: &str) {
    let own = group(rt, alloc, text, false);
    let shared = group(rt, alloc, text, true);
    let of_own = alone(rt, alloc, made(rt, own.copy(alloc)));
    let of_shared = alone(rt, alloc, made(rt, shared.copy(alloc)));
    let own = alone(rt, alloc, own);
    let shared = alone(rt, alloc, shared);
    are_the_same(rt, alloc, &own, &shared);
    are_the_same(rt, alloc, &own, &of_own);
    are_the_same(rt, alloc, &shared, &of_shared);
    are_the_same(rt, alloc, &of_own, &of_shared);
    are_the_same(rt, alloc, &own, &made(rt, own.copy(alloc)));
    let content = tokens(rt, alloc, text);
    is(rt, !shared.same(&content), "a group is not what it holds");
    let other = alone(rt, alloc, group(rt, alloc, "z", true));
    is(rt, !shared.same(&other), "another list");
}

#[test]
fn groups_share_what_they_hold(rt: HostRuntime) {
    let alloc = rt.alloc();
    for text in ["", "a", "a ( 1 :: [ b { } ] ) c", "^ a $ ^ $"] {
        own_is_as_shared(&rt, alloc, text);
        for shared in [false, true] {
            copies_hold(&rt, alloc, text, shared);
            lists_are_apart(&rt, alloc, text, shared);
        }
    }
}
