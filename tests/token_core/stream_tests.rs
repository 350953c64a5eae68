//! Positions, choices, lists and whole reads: the texts of refusals, and a few worked examples.

ghost use Rattle.token_core.specs.Reads.{OptionReads, OptionRefuses};

use crate::core_tests::{
    buffer_of, got, is, made, nth, numbers, refused, says, text_is, tokens, wants,
};
use std::alloc::{AllocError, Global};
use std::process::Abort;
use token_core::token::{Comma, Paren, PathSep};
use token_core::{
    ByParse, Cursor, Delimiter, Error, ErrorKind, Ident, Parse, ParseStream, Punctuated, Span,
    Token, TokenStream, TokenTree, read_scoped, verbatim,
};

fn choice_says(rt: &impl Abort, error: &Error, text: &str, at: Span) {
    says(rt, error, ErrorKind::Expected, text, at);
}

#[test]
fn choices_have_their_texts(rt: HostRuntime) {
    let alloc = rt.alloc();
    let list = tokens(&rt, alloc, "+");
    let buffer = buffer_of(&rt, alloc, &list);
    let input = ParseStream::new(&buffer, nth(9));
    let mut look = input.lookahead1();
    choice_says(&rt, &look.error(alloc), "unexpected token", nth(0));
    is(&rt, !look.peek::<Ident>(), "no identifier");
    choice_says(&rt, &look.error(alloc), "expected identifier", nth(0));
    is(&rt, !look.peek::<Paren>(), "no parentheses");
    let text = "expected identifier or parentheses";
    choice_says(&rt, &look.error(alloc), text, nth(0));
    is(&rt, !look.peek::<Comma>(), "no comma");
    let text = "expected one of: identifier, parentheses, `,`";
    choice_says(&rt, &look.error(alloc), text, nth(0));
}

#[test]
fn choices_end_with_the_stream(rt: HostRuntime) {
    let alloc = rt.alloc();
    let list = tokens(&rt, alloc, "a");
    let buffer = buffer_of(&rt, alloc, &list);
    let mut input = ParseStream::new(&buffer, nth(9));
    // a test that succeeds leaves no name
    let mut look = input.lookahead1();
    is(&rt, !look.peek::<Paren>(), "no parentheses");
    is(&rt, look.peek::<Ident>(), "an identifier");
    choice_says(&rt, &look.error(alloc), "expected parentheses", nth(0));
    drop(got(&rt, input.read_ident(alloc)));
    let mut look = input.lookahead1();
    let text = "unexpected end of input";
    choice_says(&rt, &look.error(alloc), text, nth(9));
    is(&rt, !look.peek::<Ident>(), "the end");
    let text = "unexpected end of input, expected identifier";
    choice_says(&rt, &look.error(alloc), text, nth(9));
}

/// The part of the list between these positions.
fn part_is(rt: &impl Abort, alloc: Global, part: Result<TokenStream, AllocError>, text: &str) {
    is(rt, made(rt, part).same(&tokens(rt, alloc, text)), text);
}

/// Goes on after an identifier.
fn skip(rt: &impl Abort, alloc: Global, input: &mut ParseStream<'_>) {
    drop(got(rt, input.read_ident(alloc)));
}

/// The trees that a stream went on by.
fn cut(
    alloc: Global,
    from: &ParseStream<'_>,
    to: &ParseStream<'_>,
) -> Result<TokenStream, AllocError> {
    verbatim::between(alloc, &from.cursor(), &to.cursor())
}

#[test]
fn parts_are_cut(rt: HostRuntime) {
    let alloc = rt.alloc();
    let list = tokens(&rt, alloc, "a ^ b ^ c $ d $ ( e ^ f $ )");
    let buffer = buffer_of(&rt, alloc, &list);
    let mut input = ParseStream::new(&buffer, Span::none());
    let begin = ParseStream::new(&buffer, Span::none());
    part_is(&rt, alloc, cut(alloc, &begin, &input), "");
    skip(&rt, alloc, &mut input);
    part_is(&rt, alloc, cut(alloc, &begin, &input), "a");
    // the outer group ends later
    skip(&rt, alloc, &mut input);
    part_is(&rt, alloc, cut(alloc, &begin, &input), "a b");
    skip(&rt, alloc, &mut input);
    part_is(&rt, alloc, cut(alloc, &begin, &input), "a b c");
    // the inner one has ended
    skip(&rt, alloc, &mut input);
    part_is(&rt, alloc, cut(alloc, &begin, &input), "a b ^ c $ d");
}

/// What is there.
pub(crate) fn some<T>(rt: &impl Abort, found: Option<T>) -> T {
    match found {
        Some(value) => value,
        None => panic!(rt; "nothing is there"),
    }
}

/// Whether it is a group in this delimiter, of so many trees.
fn is_group(tree: &TokenTree, delimiter: Delimiter, len: usize) -> bool {
    match tree {
        TokenTree::Group(group) => {
            (group.delimiter() == delimiter) & (group.stream().len() == len)
        }
        _ => false,
    }
}

/// Neither a tree nor a group stands there, and no group ends.
fn is_end(rt: &impl Abort, place: &Cursor<'_>) {
    is(rt, place.tree().is_none(), "no tree");
    is(rt, place.enter().is_none(), "no group");
    is(rt, place.leave().is_none(), "no end of a group");
}

#[test]
fn positions_are_told_apart(rt: HostRuntime) {
    let alloc = rt.alloc();
    let list = tokens(&rt, alloc, "^ a $ ( b )");
    let buffer = buffer_of(&rt, alloc, &list);
    let begin = buffer.begin();
    is(&rt, begin.leave().is_none(), "no end of a group");
    let (group, after) = some(&rt, begin.tree());
    is(&rt, is_group(group, Delimiter::None, 1), "^ a $");
    let (paren, end) = some(&rt, after.tree());
    is(&rt, is_group(paren, Delimiter::Parenthesis, 1), "( b )");
    is_end(&rt, &end);
    let inside = some(&rt, begin.enter());
    let (_, last) = some(&rt, inside.tree());
    is(&rt, last.tree().is_none(), "one tree in it");
    is(&rt, last.leave().is_some(), "its end");
    is(&rt, after.enter().is_some(), "another group");
}

#[test]
fn equal_lists_are_the_same(rt: HostRuntime) {
    let alloc = rt.alloc();
    let list = tokens(&rt, alloc, "a + ( b 1 ) ^ $");
    for (text, is_same) in [
        ("a + ( b 1 ) ^ $", true),
        ("a + ( b 1 )", false),
        ("a + ( b 1 ) ^ c $", false),
        ("a + ( b 1 ) ( )", false),
        ("a + [ b 1 ] ^ $", false),
        ("a + ( b 2 ) ^ $", false),
        ("a - ( b 1 ) ^ $", false),
        ("b + ( b 1 ) ^ $", false),
        ("+ a ( b 1 ) ^ $", false),
    ] {
        let other = tokens(&rt, alloc, text);
        is(&rt, list.same(&other) == is_same, text);
    }
    // a mark that is Joint
    let apart = tokens(&rt, alloc, ": :");
    is(&rt, !apart.same(&tokens(&rt, alloc, "::")), ": :");
}

fn iterates(rt: &impl Abort, list: &Punctuated<u8, Comma>, count: u8) {
    let mut at = 0u8;
    for value in list.iter() {
        is(rt, *value == at, "iter");
        at = at.saturating_add(1);
    }
    is(rt, at == count, "each value");
}

/// Each value has a mark, but the last of a list that ends in none.
fn pairs_up(rt: &impl Abort, list: &Punctuated<u8, Comma>, count: u8, trailing: bool) {
    let mut at = 0u8;
    for (value, mark) in list.pairs() {
        is(rt, *value == at, "pairs");
        at = at.saturating_add(1);
        is(rt, mark.is_some() == ((at < count) | trailing), "marks");
    }
    is(rt, at == count, "each pair");
}

fn add_10(list: &mut Punctuated<u8, Comma>) {
    for value in list.iter_mut() {
        *value = value.saturating_add(10);
    }
}

fn ends_are(rt: &impl Abort, list: &Punctuated<u8, Comma>, first: Option<u8>, last: Option<u8>) {
    is(rt, list.first().copied() == first, "first");
    is(rt, list.last().copied() == last, "last");
}

#[test]
fn values_come_in_order(rt: HostRuntime) {
    let alloc = rt.alloc();
    for (count, trailing, first, last) in [
        (0, false, None, None),
        (1, false, Some(10), Some(10)),
        (1, true, Some(10), Some(10)),
        (2, false, Some(10), Some(11)),
        (2, true, Some(10), Some(11)),
    ] {
        let mut list = made(&rt, numbers(alloc, 0, count, trailing));
        iterates(&rt, &list, count);
        pairs_up(&rt, &list, count, trailing);
        add_10(&mut list);
        ends_are(&rt, &list, first, last);
    }
}

/// Whether the list ended in this value, with a mark or none.
fn is_popped(popped: Option<(u8, Option<Comma>)>, value: Option<u8>, trailing: bool) -> bool {
    match popped {
        Some((found, mark)) => (Some(found) == value) & (mark.is_some() == trailing),
        None => value.is_none(),
    }
}

#[test]
fn last_values_are_removed(rt: HostRuntime) {
    let alloc = rt.alloc();
    for (count, trailing, last, len) in [
        (0, false, None, 0),
        (1, false, Some(0), 0),
        (1, true, Some(0), 0),
        (2, false, Some(1), 1),
        (2, true, Some(1), 1),
    ] {
        let mut list = made(&rt, numbers(alloc, 0, count, trailing));
        is(&rt, is_popped(list.pop(), last, trailing), "popped");
        is(&rt, list.len() == len, "len");
        is(&rt, list.empty_or_trailing(), "empty_or_trailing");
    }
}

/// Identifiers with commas, up to the end.
fn names(alloc: Global, input: &mut ParseStream<'_>) -> Result<Punctuated<Ident, Comma>, Error> {
    Punctuated::parse_terminated(alloc, input)
}

fn list_is_read(rt: &impl Abort, alloc: Global, text: &str, count: usize, trailing: bool) {
    let list = tokens(rt, alloc, text);
    let buffer = buffer_of(rt, alloc, &list);
    let mut input = ParseStream::new(&buffer, Span::none());
    let list = got(rt, names(alloc, &mut input));
    is(rt, list.len() == count, text);
    is(rt, list.trailing_punct() == trailing, text);
    is(rt, input.is_empty(), text);
}

fn list_is_refused(rt: &impl Abort, alloc: Global, text: &str, said: &str, at: usize) {
    let list = tokens(rt, alloc, text);
    let buffer = buffer_of(rt, alloc, &list);
    let mut input = ParseStream::new(&buffer, Span::none());
    wants(rt, names(alloc, &mut input), said, nth(at));
}

#[test]
fn lists_are_read_to_the_end(rt: HostRuntime) {
    let alloc = rt.alloc();
    list_is_read(&rt, alloc, "", 0, false);
    list_is_read(&rt, alloc, "a", 1, false);
    list_is_read(&rt, alloc, "a ,", 1, true);
    list_is_read(&rt, alloc, "a , b", 2, false);
    list_is_read(&rt, alloc, "a , ^ b $ ,", 2, true);
    list_is_refused(&rt, alloc, "a b", "expected `,`", 1);
    list_is_refused(&rt, alloc, ", a", "expected identifier", 0);
    list_is_refused(&rt, alloc, "a , , b", "expected identifier", 2);
}

/// A token, if it is there.
#[derive(Drop)]
struct Perhaps<T>(Option<T>);

impl<T: Token + Parse> Parse for Perhaps<T> {
    ghost reads = { λ s it. OptionReads T.sees T.reads s it.0 };

    ghost refuses = { OptionRefuses T.sees T.refuses };

    fn parse(alloc: Global, input: &mut ParseStream<'_>) -> Result<Perhaps<T>, Error> {
        Ok(Perhaps(input.parse_option(alloc)?))
    }
}

/// Identifiers and commas in turn, each of which may be absent.
fn perhaps_names(
    alloc: Global,
    input: &mut ParseStream<'_>,
) -> Result<Punctuated<Perhaps<Ident>, Perhaps<Comma>>, Error> {
    Punctuated::parse_terminated(alloc, input)
}

fn loose_list_is_read(rt: &impl Abort, alloc: Global, text: &str, count: usize, trailing: bool) {
    let list = tokens(rt, alloc, text);
    let buffer = buffer_of(rt, alloc, &list);
    let mut input = ParseStream::new(&buffer, Span::none());
    let list = got(rt, perhaps_names(alloc, &mut input));
    is(rt, list.len() == count, text);
    is(rt, list.trailing_punct() == trailing, text);
    is(rt, input.is_empty(), text);
}

fn empty_turn_is_refused(rt: &impl Abort, alloc: Global, text: &str, at: usize) {
    let list = tokens(rt, alloc, text);
    let buffer = buffer_of(rt, alloc, &list);
    let mut input = ParseStream::new(&buffer, nth(9));
    let kind = ErrorKind::Unexpected;
    refused(
        rt,
        perhaps_names(alloc, &mut input),
        kind,
        "unexpected token",
        nth(at),
    );
}

#[test]
fn lists_of_nothing_end(rt: HostRuntime) {
    let alloc = rt.alloc();
    loose_list_is_read(&rt, alloc, "", 0, false);
    loose_list_is_read(&rt, alloc, "a", 1, false);
    loose_list_is_read(&rt, alloc, "a b", 2, false);
    loose_list_is_read(&rt, alloc, ", a", 2, false);
    loose_list_is_read(&rt, alloc, "a , ,", 2, true);
    empty_turn_is_refused(&rt, alloc, "+", 0);
    empty_turn_is_refused(&rt, alloc, "a +", 1);
    empty_turn_is_refused(&rt, alloc, "a , + b", 2);
    empty_turn_is_refused(&rt, alloc, "^ $ +", 2);
}

/// Two colons, and then an identifier.
fn after_colons(alloc: Global, input: &mut ParseStream<'_>) -> Result<Ident, Error> {
    let _ = input.parse::<PathSep>(alloc)?;
    input.parse::<Ident>(alloc)
}

#[test]
fn scopes_are_told(rt: HostRuntime) {
    let alloc = rt.alloc();
    let list = tokens(&rt, alloc, "");
    let whole = read_scoped(alloc, ByParse::<Ident>::new(), nth(7), &list);
    let text = "unexpected end of input, expected identifier";
    wants(&rt, whole, text, nth(7));
    let list = tokens(&rt, alloc, "a");
    let whole = read_scoped(alloc, ByParse::<Ident>::new(), nth(7), &list);
    text_is(&rt, got(&rt, whole).text(), "a");
}

#[test]
fn functions_are_called(rt: HostRuntime) {
    let alloc = rt.alloc();
    let list = tokens(&rt, alloc, ":: a b");
    let buffer = buffer_of(&rt, alloc, &list);
    let mut input = ParseStream::new(&buffer, Span::none());
    let called = input.call(alloc, after_colons);
    text_is(&rt, got(&rt, called).text(), "a");
    let called = input.call(alloc, after_colons);
    wants(&rt, called, "expected `::`", nth(2));
}
