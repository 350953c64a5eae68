//! Each call of a list of values and marks, on short lists.

use crate::core_tests::{buffer_of, got, is, made, nth, tokens};
use std::alloc::{AllocError, Global};
use std::process::Abort;
use token_core::token::Comma;
use token_core::{Ident, ParseStream, Punctuated, Span, Spanned, ToTokens, TokenStream};

type Names = Punctuated<Ident, Comma>;

/// The names and commas of a text.
fn read(rt: &impl Abort, alloc: Global, list: &TokenStream) -> Names {
    let buffer = buffer_of(rt, alloc, list);
    let mut input = ParseStream::new(&buffer, Span::none());
    got(rt, Punctuated::parse_terminated(alloc, &mut input))
}

/// The same names and commas, put one after the other.
fn copied(alloc: Global, names: &Names) -> Result<Names, AllocError> {
    let mut copy: Names = Punctuated::new(alloc);
    for (i, name) in names.values().iter().enumerate() {
        if copy.empty_or_trailing() {
            copy.push_value(name.copy(alloc)?)?;
        }
        if let Some(comma) = names.mark(i) {
            if !copy.empty_or_trailing() {
                copy.push_punct(*comma)?;
            }
        }
    }
    Ok(copy)
}

/// Names stand at the even places of the text, commas at the odd ones.
fn name_at(name: Option<&Ident>, i: usize, is_there: bool) -> bool {
    match name {
        Some(name) => is_there & (name.span() == nth(i.saturating_mul(2))),
        None => !is_there,
    }
}

fn comma_at(comma: Option<&Comma>, i: usize, is_there: bool) -> bool {
    match comma {
        Some(comma) => is_there & (comma.spans[0] == nth(i.saturating_mul(2).saturating_add(1))),
        None => !is_there,
    }
}

fn counts_are(rt: &impl Abort, names: &Names, values: usize, marks: usize) {
    is(rt, names.len() == values, "len");
    is(rt, names.is_empty() == (values == 0), "is_empty");
    is(
        rt,
        names.empty_or_trailing() == (values == marks),
        "empty_or_trailing",
    );
    is(
        rt,
        names.trailing_punct() == ((values == marks) & (values > 0)),
        "trailing_punct",
    );
    is(rt, names.values().len() == values, "values");
    is(rt, names.marks().len() == marks, "marks");
}

fn places_are(rt: &impl Abort, names: &Names, values: usize, marks: usize) {
    for i in 0..3usize {
        is(rt, name_at(names.value(i), i, i < values), "value");
        is(rt, name_at(names.values().get(i), i, i < values), "values");
        is(rt, comma_at(names.mark(i), i, i < marks), "mark");
        is(rt, comma_at(names.marks().get(i), i, i < marks), "marks");
        is(rt, is_indexed(names, i), "index");
    }
    is(rt, name_at(names.first(), 0, values > 0), "first");
    is(
        rt,
        name_at(names.last(), values.saturating_sub(1), values > 0),
        "last",
    );
}

/// Whether what stands at a place of the list is its value.
fn is_indexed(names: &Names, i: usize) -> bool {
    if i < names.len() {
        name_at(Some(&names[i]), i, true)
    } else {
        true
    }
}

fn goes_over(rt: &impl Abort, names: &Names, values: usize, marks: usize) {
    let mut at = 0usize;
    for name in names {
        is(rt, name_at(Some(name), at, true), "a loop");
        at = at.saturating_add(1);
    }
    is(rt, at == values, "each in a loop");
    at = 0;
    for name in names.iter() {
        is(rt, name_at(Some(name), at, true), "iter");
        at = at.saturating_add(1);
    }
    is(rt, at == values, "each of iter");
    at = 0;
    for (name, comma) in names.pairs() {
        is(rt, name_at(Some(name), at, true), "pairs");
        is(rt, comma_at(comma, at, at < marks), "marks of pairs");
        at = at.saturating_add(1);
    }
    is(rt, at == values, "each of pairs");
}

fn prints(rt: &impl Abort, alloc: Global, names: &Names, list: &TokenStream) {
    let mut out = TokenStream::new(alloc);
    made(rt, names.to_tokens(alloc, &mut out));
    is(rt, out.same(list), "printed as it was read");
}

/// Moves each name by two places.
fn move_names(names: &mut Names) {
    let mut at = 2usize;
    for name in names.iter_mut() {
        name.span = nth(at);
        at = at.saturating_add(2);
    }
}

/// The last name goes with its comma, and what is left ends in one or is empty.
fn last_goes(rt: &impl Abort, names: &mut Names, values: usize, marks: usize) {
    let there = values > 0;
    match names.pop() {
        Some((name, comma)) => {
            is(
                rt,
                there & name_at(Some(&name), values, true),
                "the last, as it was moved",
            );
            is(
                rt,
                comma_at(comma.as_ref(), values.saturating_sub(1), values == marks),
                "its comma",
            );
        }
        None => is(rt, !there, "none to pop"),
    }
    is(rt, names.len() == values.saturating_sub(1), "one fewer");
    is(rt, names.empty_or_trailing(), "a value may come");
}

fn answers(rt: &impl Abort, alloc: Global, text: &str, values: usize, marks: usize) {
    let list = tokens(rt, alloc, text);
    let names = read(rt, alloc, &list);
    let mut copy = made(rt, copied(alloc, &names));
    for names in [&names, &copy] {
        counts_are(rt, names, values, marks);
        places_are(rt, names, values, marks);
        goes_over(rt, names, values, marks);
        prints(rt, alloc, names, &list);
    }
    move_names(&mut copy);
    last_goes(rt, &mut copy, values, marks);
}

#[test]
fn short_lists_answer_each_call(rt: HostRuntime) {
    let alloc = rt.alloc();
    for (text, values, marks) in [
        ("", 0, 0),
        ("a", 1, 0),
        ("a ,", 1, 1),
        ("a , b", 2, 1),
        ("a , b ,", 2, 2),
    ] {
        answers(&rt, alloc, text, values, marks);
    }
}
