//! Lists made by hand, and what the tests show of lists, paths and refusals.

use std::alloc::{AllocError, Global};
use std::fmt::Write;
use std::process::Abort;
use syn_mid::{Arguments, ModStyle, PathOf, PathSegmentOf};
use token_core::token::PathSep;
use token_core::{
    DelimSpan, Delimiter, Error, ErrorKind, Group, Ident, Punct, Spacing, Span, ToTokens,
    TokenStream, TokenTree, read_all_with,
};

/// Where each group of these tests stands.
pub(crate) fn place() -> DelimSpan {
    DelimSpan::new(Span::new(50, 51), Span::new(60, 61))
}

fn mark(ch: char, spacing: Spacing, at: usize) -> TokenTree {
    let span = Span::new(at, at.saturating_add(1));
    TokenTree::Punct(Punct::new(ch, spacing, span))
}

fn put_word(alloc: Global, word: &str, at: usize, out: &mut TokenStream) -> Result<(), AllocError> {
    match word {
        "::" => {
            out.push(mark(':', Spacing::Joint, at))?;
            out.push(mark(':', Spacing::Alone, at.saturating_add(1)))
        }
        ":" => out.push(mark(':', Spacing::Alone, at)),
        "!" => out.push(mark('!', Spacing::Alone, at)),
        _ => {
            let span = Span::new(at, at.saturating_add(word.len()));
            out.push(TokenTree::Ident(Ident::new(alloc, word, span)?))
        }
    }
}

/// The list of a text whose tokens stand one space apart, each with its place.
pub(crate) fn tokens_of(alloc: Global, text: &str) -> Result<TokenStream, AllocError> {
    let mut out = TokenStream::new(alloc);
    let mut at: usize = 0;
    for word in text.split_whitespace() {
        put_word(alloc, word, at, &mut out)?;
        at = at.saturating_add(word.len()).saturating_add(1);
    }
    Ok(out)
}

pub(crate) fn tokens(rt: &impl Abort, alloc: Global, text: &str) -> TokenStream {
    made(rt, tokens_of(alloc, text))
}

/// Puts a group of the tokens of a text at the end.
pub(crate) fn put_group(
    alloc: Global,
    delimiter: Delimiter,
    text: &str,
    out: &mut TokenStream,
) -> Result<(), AllocError> {
    let content = tokens_of(alloc, text)?;
    out.push(TokenTree::Group(Group::new(delimiter, content, place())))
}

/// What was read; a refusal stops the test.
pub(crate) fn got<T>(rt: &impl Abort, outcome: Result<T, Error>) -> T {
    match outcome {
        Ok(value) => value,
        Err(error) => panic!(rt; "refused: {}", error.text()),
    }
}

/// What was made, where memory was left.
pub(crate) fn made<T>(rt: &impl Abort, outcome: Result<T, AllocError>) -> T {
    match outcome {
        Ok(value) => value,
        Err(_) => panic!(rt; "out of memory"),
    }
}

pub(crate) fn is(rt: &impl Abort, fact: bool, name: &str) {
    assert!(rt; fact, "{name}");
}

pub(crate) fn text_is(rt: &impl Abort, found: &str, wanted: &str) {
    assert_eq!(rt; found, wanted);
}

pub(crate) fn put(rt: &impl Abort, text: &str, out: &mut String) {
    made(rt, out.push_str(text));
}

fn write_span(span: Span, out: &mut String) -> Result<(), AllocError> {
    write!(out, " {}-{}", span.lo, span.hi)?;
    Ok(())
}

pub(crate) fn show_span(rt: &impl Abort, span: Span, out: &mut String) {
    made(rt, write_span(span, out));
}

fn bracket(delimiter: Delimiter) -> &'static str {
    match delimiter {
        Delimiter::Parenthesis => "(",
        Delimiter::Brace => "{",
        Delimiter::Bracket => "[",
        Delimiter::None => "none",
    }
}

fn write_mark(mark: &Punct, out: &mut String) -> Result<(), AllocError> {
    write!(out, "{}", mark.ch)?;
    Ok(())
}

fn show_mark(rt: &impl Abort, mark: &Punct, out: &mut String) {
    made(rt, write_mark(mark, out));
    put(rt, joint(mark.spacing), out);
    show_span(rt, mark.span, out);
}

fn joint(spacing: Spacing) -> &'static str {
    match spacing {
        Spacing::Joint => "~",
        Spacing::Alone => "",
    }
}

/// Each tree with its place; a joint mark has a `~`, and a group ends with `end` and its bracket's place.
pub(crate) fn list(rt: &impl Abort, tokens: &TokenStream, out: &mut String) {
    for tree in tokens.trees() {
        match tree {
            TokenTree::Ident(word) => {
                put(rt, word.text(), out);
                show_span(rt, word.span, out);
            }
            TokenTree::Punct(mark) => show_mark(rt, mark, out),
            TokenTree::Literal(_) => put(rt, "?", out),
            TokenTree::Group(group) => {
                let span = group.delim_span();
                put(rt, bracket(group.delimiter()), out);
                show_span(rt, span.opening, out);
                put(rt, ";", out);
                list(rt, group.stream(), out);
                put(rt, "end", out);
                show_span(rt, span.closing, out);
            }
        }
        put(rt, ";", out);
    }
}

fn show_sep(rt: &impl Abort, mark: &PathSep, out: &mut String) {
    show_span(rt, mark.spans[0], out);
    show_span(rt, mark.spans[1], out);
    put(rt, ";", out);
}

fn show_segment<A: Arguments>(rt: &impl Abort, segment: &PathSegmentOf<A>, out: &mut String) {
    put(rt, segment.ident.text(), out);
    show_span(rt, segment.ident.span, out);
    if !segment.arguments.are_none() {
        put(rt, " with arguments", out);
    }
    put(rt, ";", out);
}

/// The parts of a path, each with its places.
pub(crate) fn show_path<A: Arguments>(rt: &impl Abort, path: &PathOf<A>, out: &mut String) {
    match &path.leading_colon {
        Some(colon) => {
            put(rt, "leading", out);
            show_sep(rt, colon, out);
        }
        None => {}
    }
    for i in 0..path.segments.len() {
        match path.segments.value(i) {
            Some(segment) => show_segment(rt, segment, out),
            None => put(rt, "?", out),
        }
        match path.segments.mark(i) {
            Some(mark) => {
                put(rt, "::", out);
                show_sep(rt, mark, out);
            }
            None => {}
        }
    }
}

fn kind_name(kind: ErrorKind) -> &'static str {
    match kind {
        ErrorKind::Expected => "Expected",
        ErrorKind::Unexpected => "Unexpected ",
        ErrorKind::ExpectedDelimiter => "ExpectedDelimiter ",
        ErrorKind::ExpectedPathSegment => "ExpectedPathSegment ",
        ErrorKind::ExpectedPathIdent => "ExpectedPathIdent ",
        _ => "another kind",
    }
}

fn has_one_text(kind: ErrorKind) -> bool {
    match kind {
        ErrorKind::Unexpected => true,
        ErrorKind::ExpectedDelimiter => true,
        ErrorKind::ExpectedPathSegment => true,
        ErrorKind::ExpectedPathIdent => true,
        _ => false,
    }
}

/// The kind of a refusal, its text where its kind has one, and where it points.
pub(crate) fn show_error(rt: &impl Abort, error: &Error, out: &mut String) {
    put(rt, kind_name(error.kind()), out);
    if has_one_text(error.kind()) {
        put(rt, error.text(), out);
    }
    show_span(rt, error.start(), out);
    show_span(rt, error.end(), out);
}

/// Each tree of the print.
pub(crate) fn show_print<T: ToTokens>(rt: &impl Abort, alloc: Global, tree: &T, out: &mut String) {
    let mut tokens = TokenStream::new(alloc);
    made(rt, tree.to_tokens(alloc, &mut tokens));
    list(rt, &tokens, out);
}

pub(crate) fn prints<T: ToTokens>(rt: &impl Abort, alloc: Global, tree: &T, wanted: &str) {
    let mut out = String::new(alloc);
    show_print(rt, alloc, tree, &mut out);
    text_is(rt, out.as_str(), wanted);
}

pub(crate) fn read_path<A: Arguments>(rt: &impl Abort, alloc: Global, text: &str) -> PathOf<A> {
    let tokens = tokens(rt, alloc, text);
    got(rt, read_all_with(alloc, ModStyle::<A>::new(), &tokens))
}
