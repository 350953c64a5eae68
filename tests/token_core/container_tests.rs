//! Lists and boxes, what they and options print, and the text of refusals, at types of their own.

use crate::core_tests::{buffer_of, got, is, made, nth, numbers, text_is, tokens};
use std::alloc::{AllocError, Global};
use std::test::Fail;
use token_core::token::{Comma, Crate, PathSep, SelfType, SelfValue};
use token_core::{
    Boxed, Error, Ident, Items, ParseStream, Punctuated, Span, ToTokens, TokenStream,
    TokensOrDefault,
};

fn seven_eight(alloc: Global) -> Result<Items<u8>, AllocError> {
    Ok(Items::from_vec(vec![in alloc; 7, 8]?))
}

fn first_of(items: &Items<u8>) -> u8 {
    if items.len() > 0 { items[0] } else { 0 }
}

fn mixed(items: &Items<u8>) -> u8 {
    let mut all = 0;
    for x in items {
        all ^= *x;
    }
    all
}

fn mixed_out(items: Items<u8>) -> u8 {
    let mut all = 0;
    for x in items {
        all ^= x;
    }
    all
}

#[test]
fn lists_are_made_of_vectors_and_gone_over(rt: HostRuntime) {
    let alloc = rt.alloc();
    let items = made(&rt, seven_eight(alloc));
    is(&rt, items.get(1) == Some(&8), "8 is the second");
    is(&rt, items.get(2).is_none(), "there is no third");
    is(&rt, first_of(&items) == 7, "7 is the first");
    is(&rt, mixed(&items) == 15, "each once, lent");
    is(&rt, items.iter().count() == 2, "two");
    is(&rt, items.into_vec().len() == 2, "out of the list");
    let items = made(&rt, seven_eight(items_allocator(alloc)));
    is(&rt, mixed_out(items) == 15, "each once, taken");
}

fn second_of(list: &Punctuated<u8, Comma>) -> u8 {
    if list.len() > 1 { list[1] } else { 0 }
}

fn mixed_values(list: &Punctuated<u8, Comma>) -> u8 {
    let mut all = 0;
    for x in list {
        all ^= *x;
    }
    all
}

#[test]
fn punctuated_lists_are_gone_over(rt: HostRuntime) {
    let list = made(&rt, numbers(rt.alloc(), 4, 3, false));
    is(&rt, second_of(&list) == 5, "5 is the second");
    is(&rt, mixed_values(&list) == 7, "4, 5 and 6, each once");
}

/// The allocator of a list that is made with this one.
fn items_allocator(alloc: Global) -> Global {
    let items: Items<u8> = Items::new(alloc);
    items.allocator()
}

#[test]
fn boxes_show_what_they_hold(rt: HostRuntime) {
    let alloc = rt.alloc();
    let mut boxed = made(&rt, Boxed::new(alloc, SelfValue { span: nth(2) }));
    is(&rt, boxed.span == nth(2), "by its field");
    is(&rt, boxed.as_ref().span == nth(2), "by reference");
    boxed.get_mut().span = nth(3);
    is(&rt, boxed.get().span == nth(3), "written");
    boxed.span = nth(4);
    is(&rt, boxed.span == nth(4), "written by its field");
    boxed.as_mut().span = nth(5);
    let boxed = Boxed::from_box(boxed.into_box());
    is(
        &rt,
        boxed.into_inner().span == nth(5),
        "through a box of std",
    );
}

fn print_of<T: ToTokens>(
    alloc: Global,
    value: &T,
    out: &mut TokenStream,
) -> Result<(), AllocError> {
    value.to_tokens(alloc, out)
}

/// `self , :: Self Self crate`, by what holds them.
fn prints(alloc: Global) -> Result<TokenStream, AllocError> {
    let mut out = TokenStream::new(alloc);
    let there = Some(SelfValue { span: nth(1) });
    print_of(alloc, &there, &mut out)?;
    let missing: Option<SelfValue> = None;
    print_of(alloc, &missing, &mut out)?;
    let missing: Option<Comma> = None;
    print_of(alloc, &TokensOrDefault(&missing), &mut out)?;
    let there = Some(PathSep::default());
    print_of(alloc, &TokensOrDefault(&there), &mut out)?;
    let mut items = Items::new(alloc);
    items.push(SelfType { span: nth(2) })?;
    items.push(SelfType { span: nth(3) })?;
    print_of(alloc, &items, &mut out)?;
    print_of(alloc, &Boxed::new(alloc, Crate::default())?, &mut out)?;
    print_of(alloc, &&Crate::default(), &mut out)?;
    Ok(out)
}

#[test]
fn what_holds_tokens_prints_them(rt: HostRuntime) {
    let out = made(&rt, prints(rt.alloc()));
    is(&rt, out.len() == 8, "eight trees");
}

/// Reads identifiers into std's collections, whose refusals become those of the read.
fn idents(alloc: Global, input: &mut ParseStream<'_>) -> Result<Vec<Box<Ident>>, Error> {
    let mut all = Vec::new(alloc);
    while input.peek::<Ident>() {
        let ident = Box::new(alloc, input.parse::<Ident>(alloc)?)?;
        all.push(ident)?;
    }
    Ok(all)
}

#[test]
fn reads_grow_collections_of_std(rt: HostRuntime) {
    let alloc = rt.alloc();
    let list = tokens(&rt, alloc, "a b union");
    let buffer = buffer_of(&rt, alloc, &list);
    let mut input = ParseStream::new(&buffer, Span::none());
    let all = got(&rt, idents(alloc, &mut input));
    is(&rt, all.len() == 3, "three");
    for (ident, text) in all.iter().zip(["a", "b", "union"]) {
        text_is(&rt, ident.text(), text);
    }
}

#[test]
fn refusals_show_their_text(rt: HostRuntime) -> Result<(), Fail> {
    let alloc = rt.alloc();
    let error = Error::new(alloc, nth(1), "no such option");
    is(
        &rt,
        error.to_string(alloc)?.as_str() == "no such option",
        "its text",
    );
    is(
        &rt,
        Error::out_of_memory().to_string(alloc)?.as_str() == "out of memory",
        "memory",
    );
    Ok(())
}
