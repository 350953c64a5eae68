//! What no contract says: the texts of refusals, that calls succeed, and a few worked examples.
//! A list is written as pieces with spaces between them. The characters of a mark are Joint but the last;
//! a quote is Joint; `^` and `$` bound an invisible group.
//!
//! `got`, `is` and the like (`lists`) stop a test where something is wrong.

pub(crate) use crate::lists::{got, is, made, text_is};
use std::alloc::{AllocError, AllocFailed, Global};
use std::mem;
use std::process::Abort;
use std::test::Fail;
use token_core::token::{
    Brace, Bracket, Comma, Crate, Gt, Lt, Not, Paren, PathSep, SelfType, SelfValue, Super, surround,
};
use token_core::{
    Boxed, ByFn, DelimSpan, Delimiter, Error, ErrorKind, Group, Ident, Items, LitKind, Literal,
    ParseStream, Punct, Punctuated, Spacing, Span, Spanned, ToTokens, TokenBuffer, TokenStream,
    TokenTree, read_all, read_all_with,
};

/// The span of a piece, by its number from 0; the characters of a mark are numbered in `hi`.
pub(crate) fn nth(n: usize) -> Span {
    Span::new(n, 0)
}

fn delimiter_of(bracket: &str) -> Delimiter {
    match bracket {
        "(" => Delimiter::Parenthesis,
        "[" => Delimiter::Bracket,
        "{" => Delimiter::Brace,
        _ => Delimiter::None,
    }
}

fn word(alloc: Global, text: &str, n: usize) -> Result<TokenTree, AllocError> {
    Ok(TokenTree::Ident(Ident::new(alloc, text, nth(n))?))
}

fn number(alloc: Global, text: &str, n: usize) -> Result<TokenTree, AllocError> {
    let literal = Literal::new(alloc, LitKind::Int, text, nth(n))?;
    Ok(TokenTree::Literal(literal))
}

fn put_mark(list: &mut TokenStream, mark: &str, n: usize) -> Result<(), AllocError> {
    for (i, ch) in mark.chars().enumerate() {
        let spacing = if ch == '\'' || i.saturating_add(1) < mark.len() {
            Spacing::Joint
        } else {
            Spacing::Alone
        };
        list.push(TokenTree::Punct(Punct::new(ch, spacing, Span::new(n, i))))?;
    }
    Ok(())
}

/// Appends a word, a number or a mark.
fn put(alloc: Global, list: &mut TokenStream, piece: &str, n: usize) -> Result<(), AllocError> {
    match piece.as_bytes().first().copied() {
        Some(b'a'..=b'z' | b'A'..=b'Z' | b'_') => list.push(word(alloc, piece, n)?),
        Some(b'0'..=b'9') => list.push(number(alloc, piece, n)?),
        _ => put_mark(list, piece, n),
    }
}

fn trees(alloc: Global, text: &str) -> Result<TokenStream, AllocError> {
    let mut list = TokenStream::new(alloc);
    let mut outer = Vec::new(alloc);
    for (n, piece) in text.split_whitespace().enumerate() {
        match piece {
            "(" | "[" | "{" | "^" => {
                let before = mem::replace(&mut list, TokenStream::new(alloc));
                outer.push((delimiter_of(piece), nth(n), before))?;
            }
            ")" | "]" | "}" | "$" => {
                if let Some((delimiter, opening, before)) = outer.pop() {
                    let content = mem::replace(&mut list, before);
                    let span = DelimSpan::new(opening, nth(n));
                    list.push(TokenTree::Group(Group::new(delimiter, content, span)))?;
                }
            }
            _ => put(alloc, &mut list, piece, n)?,
        }
    }
    Ok(list)
}

pub(crate) fn tokens(rt: &impl Abort, alloc: Global, text: &str) -> TokenStream {
    made(rt, trees(alloc, text))
}

pub(crate) fn buffer_of<'a>(
    rt: &impl Abort,
    alloc: Global,
    list: &'a TokenStream,
) -> TokenBuffer<'a> {
    made(rt, TokenBuffer::new(alloc, list))
}

pub(crate) fn says(rt: &impl Abort, error: &Error, kind: ErrorKind, text: &str, at: Span) {
    text_is(rt, error.text(), text);
    is(rt, error.kind() == kind, text);
    is(rt, (error.start() == at) & (error.end() == at), text);
}

/// It is refused, with this kind, text and place.
pub(crate) fn refused<T: Drop>(
    rt: &impl Abort,
    outcome: Result<T, Error>,
    kind: ErrorKind,
    text: &str,
    at: Span,
) {
    match outcome {
        Ok(_) => panic!(rt; "read, and not refused: {text}"),
        Err(error) => says(rt, &error, kind, text, at),
    }
}

/// It is refused, since this was expected here.
pub(crate) fn wants<T: Drop>(rt: &impl Abort, outcome: Result<T, Error>, text: &str, at: Span) {
    refused(rt, outcome, ErrorKind::Expected, text, at);
}

fn kind_says(rt: &impl Abort, alloc: Global, kind: ErrorKind, text: &str) {
    text_is(rt, kind.text(), text);
    says(rt, &Error::named(alloc, kind, nth(7)), kind, text, nth(7));
}

#[test]
fn refusals_have_their_texts(rt: HostRuntime) {
    let alloc = rt.alloc();
    for (kind, text) in [
        (ErrorKind::OutOfMemory, "out of memory"),
        (ErrorKind::Expected, ""),
        (ErrorKind::Unexpected, "unexpected token"),
        (ErrorKind::Custom, ""),
        (ErrorKind::ExpectedDelimiter, "expected delimiter"),
        (
            ErrorKind::ExpectedPathSegment,
            "expected path segment after `::`",
        ),
        (
            ErrorKind::ExpectedPathIdent,
            "expected this path to be an identifier",
        ),
        (ErrorKind::UnclosedDelimiter, "unclosed delimiter"),
        (
            ErrorKind::UnexpectedClosingDelimiter,
            "unexpected closing delimiter",
        ),
        (ErrorKind::UnknownToken, "unknown start of token"),
        (
            ErrorKind::UnterminatedToken,
            "unterminated literal or comment",
        ),
        (
            ErrorKind::DocComment,
            "documentation comments are not supported",
        ),
        (ErrorKind::MalformedNumber, "malformed number"),
        (
            ErrorKind::BinderWithQuestion,
            "`for<...>` binder not allowed with `?` trait polarity modifier",
        ),
        (
            ErrorKind::GenericsOnWhere,
            "generic parameters on `where` clauses are reserved for future use",
        ),
        (
            ErrorKind::CaptureNotAllowed,
            "`use<...>` precise capturing syntax is not allowed here",
        ),
        (
            ErrorKind::ConditionalConstNotAllowed,
            "`[const]` is not allowed here",
        ),
        (ErrorKind::ConstNotAllowed, "`const` is not allowed here"),
        (
            ErrorKind::NoTraitInObject,
            "at least one trait is required for an object type",
        ),
        (
            ErrorKind::NoTraitInImpl,
            "at least one trait must be specified",
        ),
        (ErrorKind::RangeWithoutEnd, "expected range upper bound"),
        (
            ErrorKind::OpenRangeInSlice,
            "range pattern is not allowed unparenthesized inside slice pattern",
        ),
        (
            ErrorKind::BoundModifiersNotSupported,
            "trait bound modifiers are not supported here",
        ),
        (ErrorKind::NestedTooDeep, "nested too deep"),
    ] {
        kind_says(&rt, alloc, kind, text);
    }
}

#[test]
fn refusals_are_made(rt: HostRuntime) {
    let alloc = rt.alloc();
    let custom = Error::new(alloc, nth(1), "odd");
    says(&rt, &custom, ErrorKind::Custom, "odd", nth(1));
    let ranged = Error::new2(alloc, nth(1), nth(2), "odd");
    is(&rt, ranged.start() == nth(1), "start");
    is(&rt, ranged.end() == nth(2), "end");
    let other = Error::of(alloc, ErrorKind::Expected, "expected one", nth(3), nth(3));
    says(&rt, &other, ErrorKind::Expected, "expected one", nth(3));
    let none = Span::none();
    is(&rt, none == Span::new(0, 0), "none");
    let kind = ErrorKind::OutOfMemory;
    says(&rt, &Error::out_of_memory(), kind, "out of memory", none);
    says(&rt, &Error::from(AllocError), kind, "out of memory", none);
    let refused = Error::from(AllocFailed { value: nth(1) });
    says(&rt, &refused, kind, "out of memory", none);
}

/// Each read is refused with its text, at this place.
fn refuses_each(
    rt: &impl Abort,
    alloc: Global,
    input: &mut ParseStream<'_>,
    texts: [&str; 7],
    at: Span,
) {
    wants(rt, input.read_ident(alloc), texts[0], at);
    wants(rt, input.read_any_ident(alloc), texts[0], at);
    wants(rt, input.parse::<Ident>(alloc), texts[0], at);
    wants(rt, Ident::parse_any(alloc, input), texts[0], at);
    wants(rt, input.parse::<PathSep>(alloc), texts[1], at);
    wants(rt, input.parse::<Crate>(alloc), texts[2], at);
    wants(rt, input.parenthesized(alloc), texts[3], at);
    wants(rt, input.braced(alloc), texts[4], at);
    wants(rt, input.bracketed(alloc), texts[5], at);
    let kind = ErrorKind::ExpectedDelimiter;
    refused(rt, input.delimited(alloc), kind, texts[6], at);
}

#[test]
fn refusals_name_what_was_expected(rt: HostRuntime) {
    let alloc = rt.alloc();
    let list = tokens(&rt, alloc, "+ ^ $");
    let buffer = buffer_of(&rt, alloc, &list);
    let mut input = ParseStream::new(&buffer, nth(9));
    let texts = [
        "expected identifier",
        "expected `::`",
        "expected `crate`",
        "expected parentheses",
        "expected curly braces",
        "expected square brackets",
        "expected delimiter",
    ];
    refuses_each(&rt, alloc, &mut input, texts, nth(0));
    let error = input.error(alloc, "odd");
    says(&rt, &error, ErrorKind::Custom, "odd", nth(0));
    drop(got(&rt, input.read_mark(alloc, &['+'], "`+`")));
    let texts = [
        "unexpected end of input, expected identifier",
        "unexpected end of input, expected `::`",
        "unexpected end of input, expected `crate`",
        "unexpected end of input, expected parentheses",
        "unexpected end of input, expected curly braces",
        "unexpected end of input, expected square brackets",
        "unexpected end of input, expected delimiter",
    ];
    refuses_each(&rt, alloc, &mut input, texts, nth(9));
    let text = "unexpected end of input, odd";
    let error = input.error(alloc, "odd");
    says(&rt, &error, ErrorKind::Custom, text, nth(9));
}

/// The stream is at an identifier of this text, and goes on after it.
pub(crate) fn ident_is(rt: &impl Abort, alloc: Global, input: &mut ParseStream<'_>, text: &str) {
    text_is(rt, got(rt, input.parse::<Ident>(alloc)).text(), text);
}

/// The stream is at a word that is an identifier.
fn reads_word(rt: &impl Abort, input: &mut ParseStream<'_>, alloc: Global, text: &str) {
    is(rt, input.peek_ident() & input.peek::<Ident>(), text);
    ident_is(rt, alloc, &mut input.fork(), text);
    text_is(rt, got(rt, input.read_ident(alloc)).text(), text);
}

/// The stream is at a keyword.
fn refuses_word(rt: &impl Abort, input: &mut ParseStream<'_>, alloc: Global, text: &str) {
    is(rt, !input.peek_ident() & !input.peek::<Ident>(), text);
    wants(rt, input.read_ident(alloc), "expected identifier", nth(0));
    let word = got(rt, Ident::parse_any(alloc, &mut input.fork()));
    text_is(rt, word.text(), text);
    text_is(rt, got(rt, input.read_any_ident(alloc)).text(), text);
}

fn word_is_read(rt: &impl Abort, alloc: Global, text: &str, is_ident: bool) {
    let list = tokens(rt, alloc, text);
    let buffer = buffer_of(rt, alloc, &list);
    let mut input = ParseStream::new(&buffer, Span::none());
    is(rt, input.peek_any_ident() & Ident::peek_any(&input), text);
    is(rt, input.peek_word("self") == (text == "self"), text);
    if is_ident {
        reads_word(rt, &mut input, alloc, text);
    } else {
        refuses_word(rt, &mut input, alloc, text);
    }
    is(rt, input.is_empty() & (input.prev_span() == nth(0)), text);
}

#[test]
fn words_are_read(rt: HostRuntime) {
    let alloc = rt.alloc();
    for (text, is_ident) in [
        ("a", true),
        ("union", true),
        ("r#self", true),
        ("self", false),
        ("_", false),
        ("yield", false),
    ] {
        word_is_read(&rt, alloc, text, is_ident);
    }
}

#[test]
fn named_words_are_read(rt: HostRuntime) {
    let alloc = rt.alloc();
    let list = tokens(&rt, alloc, "Self self super crate self");
    let buffer = buffer_of(&rt, alloc, &list);
    let mut input = ParseStream::new(&buffer, Span::none());
    is(&rt, input.peek::<SelfType>(), "at Self");
    is(&rt, !input.peek::<SelfValue>(), "not at self");
    let span = got(&rt, input.parse::<SelfType>(alloc)).span;
    is(&rt, span == nth(0), "Self");
    let span = got(&rt, input.parse::<SelfValue>(alloc)).span;
    is(&rt, span == nth(1), "self");
    let span = got(&rt, input.parse::<Super>(alloc)).span;
    is(&rt, span == nth(2), "super");
    let span = got(&rt, input.parse::<Crate>(alloc)).span;
    is(&rt, span == nth(3), "crate");
    wants(&rt, input.parse::<Super>(alloc), "expected `super`", nth(4));
    let word = got(&rt, input.read_word(alloc, "self", "`self`"));
    is(&rt, word.span() == nth(4), "the last self");
}

/// A mark that may be glued to another, at the front of `:: :: >> < ! , : :`.
fn short_marks_are_read(rt: &impl Abort, alloc: Global, input: &mut ParseStream<'_>) {
    let colon = got(rt, input.read_mark(alloc, &[':'], "`:`"));
    is(rt, colon.first == Span::new(1, 0), "the first colon");
    is(rt, colon.third == Span::new(1, 0), "its other spans");
    is(
        rt,
        !input.peek::<PathSep>() & input.peek_mark(&[':']),
        "a rest",
    );
    let colon = got(rt, input.read_mark(alloc, &[':'], "`:`"));
    is(rt, colon.first == Span::new(1, 1), "the second colon");
    is(
        rt,
        input.peek::<Gt>() & input.peek_mark(&['>', '>']),
        "at >>",
    );
    let spans = got(rt, input.parse::<Gt>(alloc)).spans;
    is(rt, spans == [Span::new(2, 0)], "the first >");
    let spans = got(rt, input.parse::<Gt>(alloc)).spans;
    is(rt, spans == [Span::new(2, 1)], "the second >");
}

#[test]
fn marks_are_read(rt: HostRuntime) {
    let alloc = rt.alloc();
    let list = tokens(&rt, alloc, ":: :: >> < ! , : :");
    let buffer = buffer_of(&rt, alloc, &list);
    let mut input = ParseStream::new(&buffer, nth(9));
    is(
        &rt,
        input.peek::<PathSep>() & input.peek_mark(&[':']),
        "at ::",
    );
    let path = got(&rt, input.parse::<PathSep>(alloc));
    is(&rt, path.spans == [Span::new(0, 0), Span::new(0, 1)], "::");
    is(&rt, input.prev_span() == Span::new(0, 1), "after ::");
    short_marks_are_read(&rt, alloc, &mut input);
    let comma = got(&rt, input.parse_option::<Comma>(alloc));
    is(&rt, comma.is_none(), "no comma");
    let less = got(&rt, input.parse_option::<Lt>(alloc));
    is(&rt, less.is_some(), "<");
    let not = got(&rt, input.parse_option::<Not>(alloc));
    is(&rt, not.is_some(), "!");
    let spans = got(&rt, input.parse::<Comma>(alloc)).spans;
    is(&rt, spans == [nth(5)], "a comma");
    // two colons that stand apart
    is(&rt, !input.peek::<PathSep>(), "no ::");
    is(&rt, input.span() == nth(6), "at a colon");
    wants(&rt, input.parse::<PathSep>(alloc), "expected `::`", nth(6));
}

#[test]
fn groups_are_read(rt: HostRuntime) {
    let alloc = rt.alloc();
    let list = tokens(&rt, alloc, "( a b ) [ ^ $ ] { c } d");
    let buffer = buffer_of(&rt, alloc, &list);
    let mut input = ParseStream::new(&buffer, nth(20));
    is(&rt, input.peek::<Paren>() & !input.peek::<Brace>(), "at (");
    is(&rt, !input.peek::<Bracket>(), "not at [");
    is(&rt, input.peek_group(Delimiter::Parenthesis), "at a group");
    is(&rt, input.span() == nth(0), "where it begins");
    is(&rt, input.scope() == nth(20), "the scope");
    is(&rt, input.prev_span() == Span::none(), "nothing before");
    let (paren, mut inside) = got(&rt, input.parenthesized(alloc));
    is(&rt, paren.span == DelimSpan::new(nth(0), nth(3)), "( )");
    is(&rt, input.prev_span() == nth(3), "after ( )");
    is(&rt, inside.scope() == nth(3), "the scope in ( )");
    text_is(&rt, got(&rt, inside.read_ident(alloc)).text(), "a");
    is(&rt, inside.leaves() == Some(nth(2)), "b is left");
    is(&rt, input.leaves() == Some(nth(4)), "[ is left");
    // the left-over `b` is handed on, and stays the first
    input.finish(inside);
    is(&rt, input.left_over() == Some(nth(2)), "b is left over");
    is(&rt, input.leaves() == Some(nth(2)), "b is the first");
    other_groups_are_read(&rt, alloc, &mut input);
}

/// After the group in parentheses.
fn other_groups_are_read(rt: &impl Abort, alloc: Global, input: &mut ParseStream<'_>) {
    let (_, empty) = got(rt, input.bracketed(alloc));
    is(rt, empty.is_empty() & empty.leaves().is_none(), "[ ]");
    input.finish(empty);
    is(rt, input.fork().left_over().is_none(), "a fork");
    let (brace, inside) = got(rt, input.braced(alloc));
    is(rt, brace.span.open_() == nth(8), "{");
    is(rt, brace.span.close() == nth(10), "}");
    input.finish(inside);
    text_is(rt, got(rt, input.read_ident(alloc)).text(), "d");
    is(rt, input.is_empty(), "the end");
    is(rt, input.leaves() == Some(nth(2)), "b stays the first");
    let span = DelimSpan::new(Span::new(1, 2), Span::new(3, 4));
    is(rt, span.join() == Span::new(1, 4), "joined");
}

#[test]
fn forks_go_on(rt: HostRuntime) {
    let alloc = rt.alloc();
    let list = tokens(&rt, alloc, "( a ) b");
    let buffer = buffer_of(&rt, alloc, &list);
    let mut input = ParseStream::new(&buffer, Span::none());
    let mut fork = input.fork();
    let group = fork.open_group(alloc, Delimiter::Parenthesis, "parentheses");
    let (_, inside) = got(&rt, group);
    fork.finish(inside);
    is(&rt, fork.left_over() == Some(nth(1)), "a is left over");
    is(&rt, fork.peek_ident(), "the fork is at b");
    is(&rt, input.left_over().is_none(), "nothing is left over");
    is(&rt, !input.peek_ident(), "the stream is at (");
    input.advance_to(fork);
    is(&rt, input.left_over() == Some(nth(1)), "the fork's");
    is(&rt, input.peek_ident(), "the stream is at b");
    let again = ParseStream::new(&buffer, Span::none());
    let place = again.cursor().again();
    is(&rt, again.peek::<Paren>(), "from the start");
    drop(place);
}

/// Whether a stream of the text is empty, at an identifier, and in front of parentheses.
fn is_entered(
    rt: &impl Abort,
    alloc: Global,
    text: &str,
    is_empty: bool,
    ident: bool,
    paren: bool,
) {
    let list = tokens(rt, alloc, text);
    let buffer = buffer_of(rt, alloc, &list);
    let input = ParseStream::new(&buffer, Span::none());
    is(rt, input.is_empty() == is_empty, text);
    is(rt, input.leaves().is_none() == is_empty, text);
    is(rt, input.peek_ident() == ident, text);
    is(rt, input.peek::<Paren>() == paren, text);
}

#[test]
fn invisible_groups_are_entered(rt: HostRuntime) {
    let alloc = rt.alloc();
    for (text, is_empty, is_ident, is_paren) in [
        ("", true, false, false),
        ("^ $", true, false, false),
        ("^ ^ $ $ ^ $", true, false, false),
        ("^ $ ^ a $", false, true, false),
        ("^ ( a ) $", false, false, true),
        ("( ^ $ )", false, false, true),
        ("1", false, false, false),
    ] {
        is_entered(&rt, alloc, text, is_empty, is_ident, is_paren);
    }
}

fn is_b_1(trees: &[TokenTree]) -> bool {
    match trees {
        [TokenTree::Ident(b), TokenTree::Literal(one)] => {
            (b.text() == "b") & (one.text() == "1") & (one.kind() == LitKind::Int)
        }
        _ => false,
    }
}

#[test]
fn groups_of_any_delimiter_are_read(rt: HostRuntime) {
    let alloc = rt.alloc();
    let list = tokens(&rt, alloc, "^ ( a ) $ [ b 1 ]");
    let buffer = buffer_of(&rt, alloc, &list);
    let mut input = ParseStream::new(&buffer, Span::none());
    let (kind, text) = (ErrorKind::ExpectedDelimiter, "expected delimiter");
    refused(&rt, input.delimited(alloc), kind, text, nth(1));
    let (paren, inside) = got(&rt, input.parenthesized(alloc));
    is(&rt, paren.span == DelimSpan::new(nth(1), nth(3)), "( )");
    is(&rt, inside.peek_ident(), "at a");
    // after the end of the invisible group
    let (delimiter, span, body) = got(&rt, input.delimited(alloc));
    is(&rt, delimiter == Delimiter::Bracket, "[");
    is(&rt, span == DelimSpan::new(nth(5), nth(8)), "[ ]");
    is(&rt, input.is_empty(), "the end");
    is(&rt, input.prev_span() == nth(8), "after ]");
    is(&rt, is_b_1(body.trees()), "b 1");
}

/// Whether an identifier is second in the text, whether one is third, and whether `::` is second.
fn is_further(rt: &impl Abort, alloc: Global, text: &str, second: bool, third: bool, path: bool) {
    let list = tokens(rt, alloc, text);
    let buffer = buffer_of(rt, alloc, &list);
    let input = ParseStream::new(&buffer, Span::none());
    is(rt, input.peek2::<Ident>() == second, text);
    is(rt, input.peek3::<Ident>() == third, text);
    is(rt, input.peek2::<PathSep>() == path, text);
}

#[test]
fn further_tokens_are_seen(rt: HostRuntime) {
    let alloc = rt.alloc();
    for (text, second, third, path) in [
        ("", false, false, false),
        ("a", false, false, false),
        ("a b c", true, true, false),
        ("' a b", true, false, false),
        ("' a :: b", false, false, true),
        ("a ' b c", false, true, false),
        (":: a b", false, true, false),
        ("1 :: a", false, false, true),
        ("( x y ) a b", true, true, false),
        ("^ a $ ^ b $ c", true, true, false),
        ("a self b", false, true, false),
    ] {
        is_further(&rt, alloc, text, second, third, path);
    }
}

/// As many numbers, from this one on.
pub(crate) fn numbers(
    alloc: Global,
    from: u8,
    count: u8,
    trailing: bool,
) -> Result<Punctuated<u8, Comma>, AllocError> {
    let mut list: Punctuated<u8, Comma> = Punctuated::new(alloc);
    for i in 0..count {
        if list.empty_or_trailing() {
            list.push_value(from.saturating_add(i))?;
            if i.saturating_add(1) < count || trailing {
                list.push_punct(Comma::default())?;
            }
        }
    }
    Ok(list)
}

fn list_is(rt: &impl Abort, list: &Punctuated<u8, Comma>, count: u8, trailing: bool) {
    let is_empty = count == 0;
    is(rt, list.len() == count as usize, "len");
    is(rt, list.is_empty() == is_empty, "is_empty");
    is(rt, list.trailing_punct() == trailing, "trailing_punct");
    let ends = trailing | is_empty;
    is(rt, list.empty_or_trailing() == ends, "empty_or_trailing");
    is(rt, list.first().is_some() != is_empty, "first");
    let marks = if ends { count } else { count.saturating_sub(1) };
    is(rt, list.values().len() == count as usize, "values");
    is(rt, list.marks().len() == marks as usize, "marks");
    for i in 0..3u8 {
        place_is(rt, list, i, i < count, i < marks);
    }
}

/// Whether there is a value at the place, and a mark.
fn place_is(rt: &impl Abort, list: &Punctuated<u8, Comma>, i: u8, value: bool, mark: bool) {
    let wanted = if value {
        Some(i.saturating_add(10))
    } else {
        None
    };
    assert_eq!(rt; list.value(i as usize).copied(), wanted, "value {i}");
    assert_eq!(rt; list.mark(i as usize).is_some(), mark, "mark {i}");
}

#[test]
fn lists_have_values_and_marks(rt: HostRuntime) {
    let alloc = rt.alloc();
    for (count, trailing) in [(0, false), (1, false), (1, true), (2, false), (2, true)] {
        let list = made(&rt, numbers(alloc, 10, count, trailing));
        list_is(&rt, &list, count, trailing);
    }
}

/// Two identifiers.
fn two(alloc: Global, input: &mut ParseStream<'_>) -> Result<(Ident, Ident), Error> {
    let first = input.parse::<Ident>(alloc)?;
    let second = input.parse::<Ident>(alloc)?;
    Ok((first, second))
}

#[test]
fn whole_lists_are_read(rt: HostRuntime) {
    let alloc = rt.alloc();
    let whole = read_all::<Ident>(alloc, &tokens(&rt, alloc, "^ a $"));
    text_is(&rt, got(&rt, whole).text(), "a");
    let whole = read_all::<Ident>(alloc, &tokens(&rt, alloc, "a ^ $ ^ b $ c"));
    let kind = ErrorKind::Unexpected;
    refused(&rt, whole, kind, "unexpected token", nth(4));
    let whole = read_all::<Ident>(alloc, &tokens(&rt, alloc, ""));
    let text = "unexpected end of input, expected identifier";
    wants(&rt, whole, text, Span::none());
}

#[test]
fn whole_lists_are_read_by_functions(rt: HostRuntime) {
    let alloc = rt.alloc();
    let whole = read_all_with(alloc, ByFn(two), &tokens(&rt, alloc, "a b"));
    let (first, second) = got(&rt, whole);
    text_is(&rt, first.text(), "a");
    text_is(&rt, second.text(), "b");
    let whole = read_all_with(alloc, ByFn(two), &tokens(&rt, alloc, "a b ( c )"));
    let kind = ErrorKind::Unexpected;
    refused(&rt, whole, kind, "unexpected token", nth(2));
    let whole = read_all_with(alloc, ByFn(two), &tokens(&rt, alloc, "a +"));
    wants(&rt, whole, "expected identifier", nth(1));
}

fn is_a_self_colons(trees: &[TokenTree]) -> bool {
    match trees {
        [
            TokenTree::Ident(a),
            TokenTree::Ident(me),
            TokenTree::Punct(one),
            TokenTree::Punct(two),
        ] => {
            (a.text() == "a")
                & (Spanned::span(a) == nth(1))
                & (me.text() == "self")
                & (me.span() == nth(2))
                & (*one == Punct::new(':', Spacing::Joint, nth(3)))
                & (*two == Punct::new(':', Spacing::Alone, nth(4)))
        }
        _ => false,
    }
}

fn a_self_colons(alloc: Global) -> Result<TokenStream, AllocError> {
    let mut out = TokenStream::new(alloc);
    Ident::new(alloc, "a", nth(1))?.to_tokens(alloc, &mut out)?;
    SelfValue { span: nth(2) }.to_tokens(alloc, &mut out)?;
    let spans = [nth(3), nth(4)];
    PathSep { spans }.to_tokens(alloc, &mut out)?;
    Ok(out)
}

#[test]
fn tokens_are_printed(rt: HostRuntime) {
    let alloc = rt.alloc();
    is(&rt, TokenStream::new(alloc).is_empty(), "nothing yet");
    let out = made(&rt, a_self_colons(alloc));
    is(&rt, is_a_self_colons(out.trees()), "a self ::");
    let mut all = TokenStream::new(alloc);
    let content = made(&rt, out.copy(alloc));
    made(&rt, Paren::default().surround(content, &mut all));
    let content = made(&rt, out.copy(alloc));
    made(&rt, Brace::default().surround(content, &mut all));
    let content = made(&rt, out.copy(alloc));
    made(&rt, Bracket::default().surround(content, &mut all));
    let span = DelimSpan::new(nth(5), nth(6));
    made(&rt, surround(Delimiter::None, span, out, &mut all));
    is(&rt, is_four_groups(all.trees(), span), "four groups");
    all.truncate(2);
    is(&rt, all.len() == 2, "two are left");
    all.truncate(9);
    is(&rt, all.len() == 2, "still two");
}

fn is_four_groups(trees: &[TokenTree], last: DelimSpan) -> bool {
    match trees {
        [
            TokenTree::Group(a),
            TokenTree::Group(b),
            TokenTree::Group(c),
            TokenTree::Group(d),
        ] => {
            (a.delimiter() == Delimiter::Parenthesis)
                & (b.delimiter() == Delimiter::Brace)
                & (c.delimiter() == Delimiter::Bracket)
                & (d.delimiter() == Delimiter::None)
                & (a.stream().len() == 4)
                & (d.delim_span() == last)
        }
        _ => false,
    }
}

/// Reads of `a ( 1 :: ) b`. Refused memory, each gives an error, and no other answer.
fn reads_or_lacks(
    rt: &impl Abort,
    alloc: Global,
    input: &mut ParseStream<'_>,
) -> Result<(), Error> {
    text_is(rt, input.parse::<Ident>(alloc)?.text(), "a");
    let (delimiter, _, body) = input.delimited(alloc)?;
    is(rt, delimiter == Delimiter::Parenthesis, "(");
    is(rt, body.len() == 3, "1 ::");
    match input.parse::<PathSep>(alloc) {
        Ok(_) => panic!(rt; "`::` is read"),
        Err(error) if error.kind() == ErrorKind::OutOfMemory => Err(error),
        Err(error) => Ok(says(rt, &error, ErrorKind::Expected, "expected `::`", nth(5))),
    }
}

fn lists_or_lacks(rt: &impl Abort, alloc: Global) -> Result<(), AllocError> {
    is(rt, numbers(alloc, 1, 2, false)?.len() == 2, "two numbers");
    let mut out = TokenStream::new(alloc);
    PathSep::default().to_tokens(alloc, &mut out)?;
    is(rt, out.len() == 2, "::");
    Ok(())
}

/// Refused, each of these gives an error, and no other answer.
#[test]
fn memory_may_be_refused(rt: HostRuntime) -> Result<(), Fail> {
    let alloc = rt.alloc();
    let list = trees(alloc, "a ( 1 :: ) b")?.copy(alloc)?;
    is(&rt, list.len() == 3, "three trees");
    let buffer = TokenBuffer::new(alloc, &list)?;
    let mut input = ParseStream::new(&buffer, Span::none());
    match reads_or_lacks(&rt, alloc, &mut input) {
        Ok(()) => {}
        Err(error) => Err(error.kind().text())?,
    }
    lists_or_lacks(&rt, alloc)?;
    Ok(())
}

#[test]
fn items_and_boxes_hold_values(rt: HostRuntime) {
    let alloc = rt.alloc();
    let mut items = Items::new(alloc);
    is(&rt, items.is_empty(), "no items");
    made(&rt, items.push(7u8));
    made(&rt, items.push(8u8));
    is(&rt, items.len() == 2, "two items");
    is(&rt, items.as_slice() == [7, 8].as_slice(), "7, 8");
    items.truncate(1);
    is(&rt, items.pop() == Some(7), "7");
    is(&rt, items.pop() == None, "none is left");
    let boxed = made(&rt, Boxed::new(alloc, 5u8));
    is(&rt, *boxed.get() == 5, "in the box");
    is(&rt, boxed.into_inner() == 5, "out of the box");
}

#[test]
fn refusals_of_a_kind_name_the_end(rt: HostRuntime) {
    let alloc = rt.alloc();
    let list = tokens(&rt, alloc, "");
    let buffer = buffer_of(&rt, alloc, &list);
    let input = ParseStream::new(&buffer, nth(3));
    let kind = ErrorKind::ExpectedPathSegment;
    let error = input.refuse(alloc, kind);
    let text = "unexpected end of input, expected path segment after `::`";
    says(&rt, &error, kind, text, nth(3));
}
