//! Each call that takes memory and answers a `Result`, and is no print of a tree: what comes of it where memory is refused.

ghost use Rattle.token_core.specs.Reads.{Follows};

use crate::growths::{Outcome, take};
use crate::nothing::Nothing;
use std::alloc::{AllocError, Global};
use syn_mid::meta::{ParseNestedMeta, parser};
use syn_mid::{
    Attribute, Macro, Meta, ModStyle, NoArguments, ParseOuter, PathArguments, PathOf, PathSegmentOf,
};
use token_core::token::{Brace, Bracket, Comma, Eq, GroupToken, Paren, Plus, Where};
use token_core::{
    Boxed, ByParse, DelimSpan, Delimiter, Error, ErrorKind, Group, Ident, Index, Items, Lifetime,
    Lit, LitKind, LitNegative, LitStr, Literal, Member, Parse, ParseStream, Parser, Punctuated,
    RangeLimits, Span, ToTokens, TokenBuffer, TokenStream, TokenTree, read_all, read_all_with,
    read_scoped,
};
use token_text::{
    lex, lit_str_value, note, note_at, place_of, read_lit_str, read_lit_str_with, read_str,
    read_str_with, text_of,
};

// Texts that take memory: short ones stand in their trees.
const WORD: &str = "a_word_of_more_than_24_bytes";

const NUMBER: &str = "1_000_000_000_000_000_000_000";

const STRING: &str = "\"a text of more than 24 bytes\"";

/// Makes the calls of this name in turn, after taking memory so often: they were refused and nothing changed, or they all answered.
/// It is refused where memory is before the calls.
pub(crate) fn outcome(alloc: Global, name: &str, times: usize) -> Result<Outcome, Error> {
    match name {
        "tokens" => tokens(alloc, times),
        "prints" => prints(alloc, times),
        "streams" => streams(alloc, times),
        "groups" => groups(alloc, times),
        "texts" => texts(alloc, times),
        "wholes" => wholes(alloc, times),
        "strings" => strings(alloc, times),
        "notes" => notes(alloc, times),
        "paths" => paths(alloc, times),
        "attributes" => attributes(alloc, times),
        "properties" => properties(alloc, times),
        _ => Err(Error::new(alloc, Span::none(), "no such calls")),
    }
}

/// What came of calls: where one was refused for another reason, or left something behind, they count as a change.
fn came(answer: Result<(), Error>) -> Outcome {
    match answer {
        Ok(()) => Outcome::Printed,
        Err(error) => match error.kind() {
            ErrorKind::OutOfMemory => Outcome::Kept,
            _ => Outcome::Changed,
        },
    }
}

/// A call whose answer is not looked at.
fn made<T: Drop>(answer: Result<T, AllocError>) -> Result<(), Error> {
    let _it = answer?;
    Ok(())
}

fn read<T: Drop>(answer: Result<T, Error>) -> Result<(), Error> {
    let _it = answer?;
    Ok(())
}

/// A call that is to refuse, but not for want of memory.
fn refused<T: Drop>(alloc: Global, answer: Result<T, Error>) -> Result<(), Error> {
    match answer {
        Ok(_) => Err(Error::new(alloc, Span::none(), "it answers")),
        Err(error) => says(error),
    }
}

/// A refusal that is made.
fn says(error: Error) -> Result<(), Error> {
    match error.kind() {
        ErrorKind::OutOfMemory => Err(error),
        _ => Ok(()),
    }
}

/// A call that appends: refused, the list is to be as before.
fn appends(
    alloc: Global,
    answer: Result<(), AllocError>,
    out: &TokenStream,
    before: &TokenStream,
) -> Result<(), Error> {
    match answer {
        Ok(()) => Ok(()),
        Err(error) => {
            if out.same(before) {
                Err(Error::from(error))
            } else {
                Err(Error::new(alloc, Span::none(), "it changed"))
            }
        }
    }
}

/// A call that pushes: refused, the length is to be as before.
fn pushes(
    alloc: Global,
    answer: Result<(), AllocError>,
    length: usize,
    before: usize,
) -> Result<(), Error> {
    match answer {
        Ok(()) => Ok(()),
        Err(error) => {
            if length == before {
                Err(Error::from(error))
            } else {
                Err(Error::new(alloc, Span::none(), "it changed"))
            }
        }
    }
}

fn ident(alloc: Global, text: &str) -> Result<Ident, AllocError> {
    Ident::new(alloc, text, Span::none())
}

fn number(alloc: Global) -> Result<Literal, AllocError> {
    Literal::new(alloc, LitKind::Int, NUMBER, Span::none())
}

fn nowhere() -> DelimSpan {
    DelimSpan::new(Span::none(), Span::none())
}

// ---- tokens and containers

fn tokens(alloc: Global, times: usize) -> Result<Outcome, Error> {
    let list = lex(
        alloc,
        "a 'a_lifetime_of_more_than_24_bytes (- 1 \"a text of more than 24 bytes\")",
    )?;
    let negative = Lit::Negative(LitNegative::new(alloc, Span::none(), number(alloc)?)?);
    let text = read_all::<LitStr>(alloc, &lex(alloc, STRING)?)?;
    let member = read_all::<Member>(alloc, &lex(alloc, WORD)?)?;
    let life = Lifetime::new(Span::none(), ident(alloc, WORD)?);
    let (first, second) = (number(alloc)?, number(alloc)?);
    let words = (ident(alloc, "d")?, ident(alloc, "e")?);
    take(alloc, times)?;
    Ok(came(copies(
        alloc, &list, &negative, &text, &member, &life, first, second, words,
    )))
}

fn copies(
    alloc: Global,
    list: &TokenStream,
    negative: &Lit,
    text: &LitStr,
    member: &Member,
    life: &Lifetime,
    first: Literal,
    second: Literal,
    words: (Ident, Ident),
) -> Result<(), Error> {
    made(ident(alloc, WORD))?;
    made(number(alloc))?;
    made(LitStr::new(alloc, STRING, Span::none()))?;
    made(LitNegative::new(alloc, Span::none(), first))?;
    made(second.copy(alloc))?;
    made(negative.copy(alloc))?;
    made(text.copy(alloc))?;
    made(member.copy(alloc))?;
    made(life.copy(alloc))?;
    made(list.copy(alloc))?;
    for tree in list.trees() {
        made(tree.copy(alloc))?;
    }
    made(Boxed::new(alloc, 1))?;
    let (word, other) = words;
    let mut out = TokenStream::new(alloc);
    let answer = out.push(TokenTree::Ident(word));
    pushes(alloc, answer, out.len(), 0)?;
    let mut items = Items::new(alloc);
    let answer = items.push(other);
    pushes(alloc, answer, items.len(), 0)?;
    let mut joined = Punctuated::new(alloc);
    let answer = joined.push_value(Plus::default());
    pushes(alloc, answer, joined.len(), 0)?;
    let answer = joined.push_punct(Comma::default());
    let marks = joined.trailing_punct() as usize;
    pushes(alloc, answer, marks, 0)
}

// ---- prints of what is no tree of syntax

fn prints(alloc: Global, times: usize) -> Result<Outcome, Error> {
    let before = lex(alloc, "a (b)")?;
    let mut out = before.copy(alloc)?;
    let lit = Lit::Negative(LitNegative::new(alloc, Span::none(), number(alloc)?)?);
    let text = read_all::<LitStr>(alloc, &lex(alloc, STRING)?)?;
    let life = Lifetime::new(Span::none(), ident(alloc, WORD)?);
    let word = ident(alloc, WORD)?;
    let contents = (
        lex(alloc, "x")?,
        lex(alloc, "y")?,
        lex(alloc, "z")?,
        lex(alloc, "w")?,
    );
    take(alloc, times)?;
    let mut answer = put(alloc, &lit, &mut out, &before);
    if answer.is_ok() {
        answer = put(alloc, &text, &mut out, &before);
    }
    if answer.is_ok() {
        answer = put(alloc, &life, &mut out, &before);
    }
    if answer.is_ok() {
        answer = put(alloc, &word, &mut out, &before);
    }
    if answer.is_ok() {
        answer = put(alloc, &Index::new(7, Span::none()), &mut out, &before);
    }
    if answer.is_ok() {
        answer = put(
            alloc,
            &RangeLimits::HalfOpen(Default::default()),
            &mut out,
            &before,
        );
    }
    if answer.is_ok() {
        answer = put(alloc, &Where::default(), &mut out, &before);
    }
    if answer.is_ok() {
        answer = surrounded(alloc, contents, &mut out, &before);
    }
    Ok(came(answer))
}

/// Prints into a list that is as long as its memory, which is made anew for each print.
fn put<T: ToTokens>(
    alloc: Global,
    tree: &T,
    out: &mut TokenStream,
    before: &TokenStream,
) -> Result<(), Error> {
    let answer = tree.to_tokens(alloc, out);
    appends(alloc, answer, out, before)?;
    *out = before.copy(alloc)?;
    Ok(())
}

fn surrounded(
    alloc: Global,
    contents: (TokenStream, TokenStream, TokenStream, TokenStream),
    out: &mut TokenStream,
    before: &TokenStream,
) -> Result<(), Error> {
    let (first, second, third, fourth) = contents;
    let answer = Paren::default().surround(first, out);
    appends(alloc, answer, out, before)?;
    *out = before.copy(alloc)?;
    let answer = Brace::default().surround(second, out);
    appends(alloc, answer, out, before)?;
    *out = before.copy(alloc)?;
    let answer = Bracket::default().surround(third, out);
    appends(alloc, answer, out, before)?;
    *out = before.copy(alloc)?;
    let answer = GroupToken::default().surround(fourth, out);
    appends(alloc, answer, out, before)
}

// ---- streams

fn streams(alloc: Global, times: usize) -> Result<Outcome, Error> {
    let list = lex(
        alloc,
        "a_word_of_more_than_24_bytes b 'a_lifetime_of_more_than_24_bytes 'd 1_000_000_000_000_000_000_000 \"a text of more than 24 bytes\" 2 3 ..= ... f ; m",
    )?;
    let joined = lex(alloc, "a_word_of_more_than_24_bytes , b , c")?;
    let lone = lex(alloc, WORD)?;
    take(alloc, times)?;
    Ok(came(stream_reads(alloc, &list, &joined, &lone)))
}

fn stream_reads(
    alloc: Global,
    list: &TokenStream,
    joined: &TokenStream,
    lone: &TokenStream,
) -> Result<(), Error> {
    let buffer = TokenBuffer::new(alloc, list)?;
    let mut input = ParseStream::new(&buffer, Span::none());
    read(input.parse::<Ident>(alloc))?;
    read(Ident::parse_any(alloc, &mut input))?;
    read(Lifetime::parse_any(alloc, &mut input))?;
    read(Lifetime::parse_optional_any(alloc, &mut input))?;
    read(input.parse::<Lit>(alloc))?;
    read(input.parse::<LitStr>(alloc))?;
    read(input.parse::<Index>(alloc))?;
    read(input.parse::<Member>(alloc))?;
    read(input.parse::<RangeLimits>(alloc))?;
    read(RangeLimits::parse_obsolete(alloc, &mut input))?;
    read(input.parse_option::<Plus>(alloc))?;
    read(input.call(alloc, Ident::parse_any))?;
    refused(alloc, input.parse::<Comma>(alloc))?;
    refused(alloc, input.parse::<Where>(alloc))?;
    refused(alloc, input.parse::<Ident>(alloc))?;
    refused(alloc, input.parse::<Lit>(alloc))?;
    says(input.error(alloc, "no"))?;
    says(input.expected(alloc, "`x`"))?;
    says(input.refuse(alloc, ErrorKind::Unexpected))?;
    let mut look = input.lookahead1();
    if look.peek::<Comma>() || look.peek::<Plus>() || look.peek::<Eq>() {
        return Err(Error::new(alloc, Span::none(), "it is another token"));
    }
    says(look.error(alloc))?;
    let buffer = TokenBuffer::new(alloc, joined)?;
    let mut input = ParseStream::new(&buffer, Span::none());
    read(Punctuated::<Ident, Comma>::parse_terminated(alloc, &mut input))?;
    read(read_all::<Ident>(alloc, lone))?;
    read(read_all_with(alloc, ByParse::<Ident>::new(), lone))?;
    read(read_scoped(alloc, ByParse::<Ident>::new(), Span::none(), lone))?;
    refused(alloc, read_all::<Ident>(alloc, joined))
}

fn groups(alloc: Global, times: usize) -> Result<Outcome, Error> {
    let list = lex(alloc, "(a) {b} [c] \\(d\\) (a_word_of_more_than_24_bytes f) g")?;
    take(alloc, times)?;
    Ok(came(group_reads(alloc, &list)))
}

fn group_reads(alloc: Global, list: &TokenStream) -> Result<(), Error> {
    let buffer = TokenBuffer::new(alloc, list)?;
    let mut input = ParseStream::new(&buffer, Span::none());
    refused(alloc, input.bracketed(alloc))?;
    refused(alloc, input.invisible(alloc))?;
    let (_, mut content) = input.parenthesized(alloc)?;
    read(content.parse::<Ident>(alloc))?;
    input.finish(content);
    let (_, mut content) = input.braced(alloc)?;
    read(content.parse::<Ident>(alloc))?;
    input.finish(content);
    let (_, mut content) = input.bracketed(alloc)?;
    read(content.parse::<Ident>(alloc))?;
    input.finish(content);
    let (_, mut content) = input.invisible(alloc)?;
    read(content.parse::<Ident>(alloc))?;
    input.finish(content);
    read(input.delimited(alloc))?;
    refused(alloc, input.delimited(alloc))
}

fn texts(alloc: Global, times: usize) -> Result<Outcome, Error> {
    let list = lex(alloc, "a::b {c \\(d\\)} [1] 'e")?;
    take(alloc, times)?;
    Ok(came(text_calls(alloc, &list)))
}

fn text_calls(alloc: Global, list: &TokenStream) -> Result<(), Error> {
    made(text_of(alloc, list))?;
    read(lex(alloc, WORD))?;
    read(lex(alloc, NUMBER))?;
    read(lex(alloc, "a (b) \"a text of more than 24 bytes\" 'd"))?;
    refused(alloc, lex(alloc, "a ("))?;
    refused(alloc, lex(alloc, "a \""))
}

// ---- whole reads of texts, and what string literals hold

fn wholes(alloc: Global, times: usize) -> Result<Outcome, Error> {
    take(alloc, times)?;
    Ok(came(whole_calls(alloc)))
}

fn whole_calls(alloc: Global) -> Result<(), Error> {
    read(read_str::<Ident>(alloc, WORD))?;
    read(read_str_with(alloc, ByParse::<Ident>::new(), WORD))?;
    refused(alloc, read_str::<Ident>(alloc, "a ("))?;
    refused(alloc, read_str::<Ident>(alloc, "a b"))?;
    refused(alloc, read_str_with(alloc, ByParse::<Ident>::new(), ""))
}

fn strings(alloc: Global, times: usize) -> Result<Outcome, Error> {
    let written = read_str::<LitStr>(alloc, "\"a_word_of_more_than_24_\\x62ytes\"")?;
    let escape = read_str::<LitStr>(alloc, "\"\\q\"")?;
    let suffixed = read_str::<LitStr>(alloc, "\"a\"s")?;
    let open = read_str::<LitStr>(alloc, "\"a (\"")?;
    take(alloc, times)?;
    Ok(came(string_calls(alloc, &written, &escape, &suffixed, &open)))
}

fn string_calls(
    alloc: Global,
    written: &LitStr,
    escape: &LitStr,
    suffixed: &LitStr,
    open: &LitStr,
) -> Result<(), Error> {
    read(lit_str_value(alloc, written))?;
    refused(alloc, lit_str_value(alloc, escape))?;
    read(read_lit_str::<Ident>(alloc, written))?;
    read(read_lit_str_with(alloc, ByParse::<Ident>::new(), written))?;
    refused(alloc, read_lit_str::<Lit>(alloc, written))?;
    refused(alloc, read_lit_str::<Ident>(alloc, suffixed))?;
    refused(
        alloc,
        read_lit_str_with(alloc, ByParse::<Ident>::new(), open),
    )
}

// ---- notes on refusals

fn notes(alloc: Global, times: usize) -> Result<Outcome, Error> {
    let text = "a\n\tb: a_word_of_more_than_24_bytes c";
    match read_str::<Ident>(alloc, text) {
        Ok(_) => Err(Error::new(alloc, Span::none(), "it answers")),
        Err(refusal) => {
            take(alloc, times)?;
            Ok(came(note_calls(alloc, text, &refusal)))
        }
    }
}

fn note_calls(alloc: Global, text: &str, refusal: &Error) -> Result<(), Error> {
    made(note(alloc, "a/file", text, refusal))?;
    let (start, end) = place_of(text, refusal);
    made(note_at(alloc, "a/file", text, "no", start, end))?;
    made(note_at(alloc, "", "", "", 0, 0))?;
    made(note_at(
        alloc,
        "a/file",
        text,
        "a_message_of_more_than_24_bytes",
        3,
        text.len(),
    ))
}

// ---- paths and macro calls

fn paths(alloc: Global, times: usize) -> Result<Outcome, Error> {
    let call = read_all::<Macro>(alloc, &lex(alloc, "m!(a_word_of_more_than_24_bytes)")?)?;
    let list = lex(alloc, "a::a_word_of_more_than_24_bytes")?;
    let path = read_all_with(alloc, ModStyle::<NoArguments>::new(), &list)?;
    let wide = PathOf::<PathArguments<Nothing>>::from_mod_path(alloc, &path)?;
    let words = (ident(alloc, "c")?, ident(alloc, "d")?);
    take(alloc, times)?;
    Ok(came(path_calls(alloc, &call, &path, &wide, words)))
}

fn path_calls(
    alloc: Global,
    call: &Macro,
    path: &PathOf<NoArguments>,
    wide: &PathOf<PathArguments<Nothing>>,
    words: (Ident, Ident),
) -> Result<(), Error> {
    let (word, other) = words;
    made(PathOf::<NoArguments>::from_ident(alloc, word))?;
    let segment = PathSegmentOf::<NoArguments>::from(other);
    made(PathOf::from_segment(alloc, segment))?;
    made(PathOf::<PathArguments<Nothing>>::from_mod_path(alloc, path))?;
    made(wide.to_mod_path(alloc))?;
    if path.segments.is_empty() {
        return Err(Error::new(alloc, Span::none(), "it has no segment"));
    }
    match path.require_ident(alloc) {
        Ok(_) => return Err(Error::new(alloc, Span::none(), "it answers")),
        Err(error) => says(error)?,
    }
    read(call.parse_body::<Ident>(alloc))?;
    read(call.parse_body_with(alloc, ByParse::<Ident>::new()))?;
    refused(alloc, call.parse_body::<Comma>(alloc))
}

// ---- attributes

fn attrs_of(alloc: Global, text: &str) -> Result<Items<Attribute<Nothing>>, Error> {
    read_all_with(alloc, ParseOuter::<Nothing>::new(), &lex(alloc, text)?)
}

fn attributes(alloc: Global, times: usize) -> Result<Outcome, Error> {
    let attrs = attrs_of(alloc, "#[a(b)] #[c]")?;
    take(alloc, times)?;
    match (attrs.get(0), attrs.get(1)) {
        (Some(list), Some(path)) => Ok(came(attribute_calls(alloc, list, path))),
        _ => Err(Error::new(alloc, Span::none(), "there are no two")),
    }
}

fn attribute_calls(
    alloc: Global,
    list: &Attribute<Nothing>,
    path: &Attribute<Nothing>,
) -> Result<(), Error> {
    if list.path().segments.is_empty() || path.path().segments.is_empty() {
        return Err(Error::new(alloc, Span::none(), "it has no segment"));
    }
    read(list.parse_args::<Ident>(alloc))?;
    read(list.parse_args_with(alloc, ByParse::<Ident>::new()))?;
    refused(alloc, path.parse_args::<Ident>(alloc))?;
    match &list.meta {
        Meta::List(meta) => {
            read(meta.parse_args::<Ident>(alloc))?;
            read(meta.parse_args_with(alloc, ByParse::<Ident>::new()))?;
        }
        _ => return Err(Error::new(alloc, Span::none(), "it is no list")),
    }
    match list.meta.require_path_only(alloc) {
        Ok(_) => return Err(Error::new(alloc, Span::none(), "it answers")),
        Err(error) => says(error)?,
    }
    match path.meta.require_list(alloc) {
        Ok(_) => return Err(Error::new(alloc, Span::none(), "it answers")),
        Err(error) => says(error)?,
    }
    match path.meta.require_name_value(alloc) {
        Ok(_) => return Err(Error::new(alloc, Span::none(), "it answers")),
        Err(error) => says(error)?,
    }
    Ok(())
}

fn properties(alloc: Global, times: usize) -> Result<Outcome, Error> {
    let attrs = attrs_of(alloc, "#[a(b = 1, c(d = 2), e)]")?;
    let tokens = lex(alloc, "b = 1, c(d = 2), e")?;
    take(alloc, times)?;
    match attrs.get(0) {
        Some(attr) => Ok(came(property_calls(alloc, attr, &tokens))),
        None => Err(Error::new(alloc, Span::none(), "there is none")),
    }
}

#[tactic(auto, using(token_core::proofs::Suffixes::follows))]
fn property(alloc: Global, meta: &mut ParseNestedMeta<'_>) -> Result<(), Error>
    ensures { Follows meta.old.input meta.new.input }
{
    if meta.input.peek::<Eq>() {
        meta.value(alloc)?.parse::<Lit>(alloc)?;
        return says(meta.error(alloc, "no"));
    }
    if meta.input.peek::<Paren>() {
        let logic = |alloc: Global, inner: &mut ParseNestedMeta<'_>| -> Result<(), Error>
            ensures { Follows inner.old.input inner.new.input }
        {
            inner.value(alloc)?.parse::<Lit>(alloc)?;
            Ok(())
        };
        return meta.parse_nested_meta(alloc, logic);
    }
    refused(alloc, meta.input.parse::<Eq>(alloc))
}

#[tactic(auto, using(token_core::proofs::Suffixes::follows))]
fn property_calls(
    alloc: Global,
    attr: &Attribute<Nothing>,
    tokens: &TokenStream,
) -> Result<(), Error> {
    let logic = |alloc: Global, meta: &mut ParseNestedMeta<'_>| -> Result<(), Error>
        ensures { Follows meta.old.input meta.new.input }
    { property(alloc, meta) };
    attr.parse_nested_meta(alloc, logic)?;
    let logic = |alloc: Global, meta: &mut ParseNestedMeta<'_>| -> Result<(), Error>
        ensures { Follows meta.old.input meta.new.input }
    { property(alloc, meta) };
    match &attr.meta {
        Meta::List(meta) => meta.parse_nested_meta(alloc, logic)?,
        _ => return Err(Error::new(alloc, Span::none(), "it is no list")),
    }
    let logic = |alloc: Global, meta: &mut ParseNestedMeta<'_>| -> Result<(), Error>
        ensures { Follows meta.old.input meta.new.input }
    { property(alloc, meta) };
    read_all_with(alloc, parser(logic), tokens)
}
