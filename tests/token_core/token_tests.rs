//! Every named mark and word once, and tables of lifetimes, literals, members, range limits and invisible groups.
//! Lists are written as in `core_tests`.

use crate::core_tests::{buffer_of, got, ident_is, is, made, nth, text_is, tokens, wants};
use std::alloc::{AllocError, Global};
use std::process::Abort;
use token_core::token::{
    And, As, Async, At, Box, Colon, Comma, Const, Crate, DotDot, DotDotDot, DotDotEq, Dyn, Enum,
    Eq, EqEq, Extern, FatArrow, Fn, For, GroupToken, Gt, If, Impl, In, Le, Lt, Minus, Mut, Ne, Not,
    Or, OrEq, OrOr, PathSep, Plus, Pound, Pub, Question, RArrow, Ref, SelfType, SelfValue, Semi,
    ShlEq, Star, Struct, Super, Try, Underscore, Union, Unsafe, Use, Where,
};
use token_core::{
    DelimSpan, Error, Ident, Index, Lifetime, Lit, LitBool, LitKind, LitNegative, LitSort, LitStr,
    Literal, Member, Parse, ParseStream, Punct, RangeLimits, Spacing, Span, ToTokens, Token,
    TokenStream, TokenTree,
};

/// Whether the list is the characters of a mark, each but the last Joint.
fn is_mark(list: &TokenStream, text: &str) -> bool {
    let mut at = 0;
    for ch in text.chars() {
        match list.trees().get(at) {
            Some(TokenTree::Punct(punct)) => {
                let last = at.saturating_add(1) == list.len();
                if punct.as_char() != ch || (punct.spacing() == Spacing::Alone) != last {
                    return false;
                }
            }
            _ => return false,
        }
        at = at.saturating_add(1);
    }
    at == list.len()
}

/// Whether the list is one identifier or one literal of this text.
fn is_text(list: &TokenStream, text: &str) -> bool {
    match list.trees() {
        [TokenTree::Ident(ident)] => ident.text() == text,
        [TokenTree::Literal(literal)] => literal.text() == text,
        _ => false,
    }
}

/// What it prints.
fn printed<T: ToTokens>(rt: &impl Abort, alloc: Global, tree: &T) -> TokenStream {
    let mut out = TokenStream::new(alloc);
    made(rt, tree.to_tokens(alloc, &mut out));
    out
}

/// The mark is read where it stands, and prints itself; its name is its text between back quotes.
fn mark_is_read<T: Token + Parse + ToTokens>(rt: &impl Abort, alloc: Global, text: &str) {
    let list = tokens(rt, alloc, text);
    let buffer = buffer_of(rt, alloc, &list);
    let mut input = ParseStream::new(&buffer, Span::none());
    is(rt, input.peek::<T>(), text);
    let mark = got(rt, input.parse::<T>(alloc));
    is(rt, input.is_empty(), text);
    is(rt, is_mark(&printed(rt, alloc, &mark), text), text);
    let name = T::display();
    is(rt, name.len() == text.len().saturating_add(2), text);
    is(rt, name.as_bytes().starts_with(b"`"), text);
    is(rt, name.as_bytes().ends_with(b"`"), text);
}

/// It is read on the front of a longer one that ends in `>`, which it leaves.
fn mark_is_read_off<T: Token + Parse>(rt: &impl Abort, alloc: Global, glued: &str, len: usize) {
    let list = tokens(rt, alloc, glued);
    let buffer = buffer_of(rt, alloc, &list);
    let mut input = ParseStream::new(&buffer, Span::none());
    is(rt, input.peek::<T>(), glued);
    drop(got(rt, input.parse::<T>(alloc)));
    let rest = got(rt, input.read_mark(alloc, &['>'], "`>`"));
    is(rt, rest.first == Span::new(0, len), glued);
    is(rt, input.is_empty(), glued);
}

fn mark<T: Token + Parse + ToTokens>(rt: &impl Abort, alloc: Global, text: &str, glued: &str) {
    mark_is_read::<T>(rt, alloc, text);
    mark_is_read_off::<T>(rt, alloc, glued, text.len());
}

#[test]
fn every_mark_is_read(rt: HostRuntime) {
    let alloc = rt.alloc();
    mark::<And>(&rt, alloc, "&", "&>");
    mark::<At>(&rt, alloc, "@", "@>");
    mark::<Colon>(&rt, alloc, ":", ":>");
    mark::<Comma>(&rt, alloc, ",", ",>");
    mark::<DotDot>(&rt, alloc, "..", "..>");
    mark::<DotDotDot>(&rt, alloc, "...", "...>");
    mark::<DotDotEq>(&rt, alloc, "..=", "..=>");
    mark::<Eq>(&rt, alloc, "=", "=>");
    mark::<EqEq>(&rt, alloc, "==", "==>");
    mark::<FatArrow>(&rt, alloc, "=>", "=>>");
    mark::<Gt>(&rt, alloc, ">", ">>");
    mark::<Le>(&rt, alloc, "<=", "<=>");
    mark::<Lt>(&rt, alloc, "<", "<>");
    mark::<Minus>(&rt, alloc, "-", "->");
}

#[test]
fn every_other_mark_is_read(rt: HostRuntime) {
    let alloc = rt.alloc();
    mark::<Ne>(&rt, alloc, "!=", "!=>");
    mark::<Not>(&rt, alloc, "!", "!>");
    mark::<Or>(&rt, alloc, "|", "|>");
    mark::<OrEq>(&rt, alloc, "|=", "|=>");
    mark::<OrOr>(&rt, alloc, "||", "||>");
    mark::<PathSep>(&rt, alloc, "::", "::>");
    mark::<Plus>(&rt, alloc, "+", "+>");
    mark::<Pound>(&rt, alloc, "#", "#>");
    mark::<Question>(&rt, alloc, "?", "?>");
    mark::<RArrow>(&rt, alloc, "->", "->>");
    mark::<Semi>(&rt, alloc, ";", ";>");
    mark::<ShlEq>(&rt, alloc, "<<=", "<<=>");
    mark::<Star>(&rt, alloc, "*", "*>");
}

/// How many marks of one kind are read off a list, until something else stands there, and whether it is then empty.
fn marks_off<T: Token + Parse>(
    rt: &impl Abort,
    alloc: Global,
    text: &str,
    wanted: usize,
    ends: bool,
) {
    let list = tokens(rt, alloc, text);
    let buffer = buffer_of(rt, alloc, &list);
    let mut input = ParseStream::new(&buffer, Span::none());
    let mut count: usize = 0;
    for _ in 0..4 {
        let mark = got(rt, input.parse_option::<T>(alloc));
        count = count.saturating_add(mark.is_some() as usize);
    }
    is(rt, count == wanted, text);
    is(rt, input.is_empty() == ends, text);
}

#[test]
fn short_marks_are_read_off_longer_ones(rt: HostRuntime) {
    let alloc = rt.alloc();
    marks_off::<Gt>(&rt, alloc, ">>", 2, true);
    marks_off::<And>(&rt, alloc, "&&", 2, true);
    marks_off::<Colon>(&rt, alloc, "::", 2, true);
    marks_off::<Eq>(&rt, alloc, "==", 2, true);
    marks_off::<EqEq>(&rt, alloc, "===", 1, false);
    marks_off::<DotDot>(&rt, alloc, "...", 1, false);
    marks_off::<DotDot>(&rt, alloc, "..=", 1, false);
    // apart, two short ones are no long one
    marks_off::<PathSep>(&rt, alloc, ": :", 0, false);
    marks_off::<OrOr>(&rt, alloc, "| |", 0, false);
}

/// The word is read where it stands, and prints itself.
fn word_is_read<T: Token + Parse + ToTokens>(rt: &impl Abort, alloc: Global, text: &str) {
    let list = tokens(rt, alloc, text);
    let buffer = buffer_of(rt, alloc, &list);
    let mut input = ParseStream::new(&buffer, Span::none());
    is(rt, input.peek::<T>() & !input.peek::<Ident>(), text);
    let word = got(rt, input.parse::<T>(alloc));
    is(rt, input.is_empty(), text);
    is(rt, is_text(&printed(rt, alloc, &word), text), text);
}

/// Its raw form, where it has one, is another identifier.
fn raw_is_another<T: Token>(rt: &impl Abort, alloc: Global, raw: &str) {
    let list = tokens(rt, alloc, raw);
    let buffer = buffer_of(rt, alloc, &list);
    let input = ParseStream::new(&buffer, Span::none());
    is(rt, !input.peek::<T>(), raw);
    is(rt, input.peek::<Ident>() != raw.is_empty(), raw);
}

fn word<T: Token + Parse + ToTokens>(rt: &impl Abort, alloc: Global, text: &str, raw: &str) {
    word_is_read::<T>(rt, alloc, text);
    raw_is_another::<T>(rt, alloc, raw);
}

#[test]
fn every_word_is_read(rt: HostRuntime) {
    let alloc = rt.alloc();
    word::<As>(&rt, alloc, "as", "r#as");
    word::<Box>(&rt, alloc, "box", "r#box");
    word::<Const>(&rt, alloc, "const", "r#const");
    word::<Crate>(&rt, alloc, "crate", "");
    word::<Dyn>(&rt, alloc, "dyn", "r#dyn");
    word::<Extern>(&rt, alloc, "extern", "r#extern");
    word::<Fn>(&rt, alloc, "fn", "r#fn");
    word::<For>(&rt, alloc, "for", "r#for");
    word::<If>(&rt, alloc, "if", "r#if");
    word::<Impl>(&rt, alloc, "impl", "r#impl");
}

#[test]
fn every_other_word_is_read(rt: HostRuntime) {
    let alloc = rt.alloc();
    word::<Mut>(&rt, alloc, "mut", "r#mut");
    word::<Ref>(&rt, alloc, "ref", "r#ref");
    word::<SelfType>(&rt, alloc, "Self", "");
    word::<SelfValue>(&rt, alloc, "self", "");
    word::<Super>(&rt, alloc, "super", "");
    word::<Try>(&rt, alloc, "try", "r#try");
    word::<Unsafe>(&rt, alloc, "unsafe", "r#unsafe");
    word::<Use>(&rt, alloc, "use", "r#use");
    word::<Where>(&rt, alloc, "where", "r#where");
    word::<Underscore>(&rt, alloc, "_", "");
}

#[test]
fn every_word_of_items_is_read(rt: HostRuntime) {
    let alloc = rt.alloc();
    word::<Async>(&rt, alloc, "async", "r#async");
    word::<Enum>(&rt, alloc, "enum", "r#enum");
    word::<In>(&rt, alloc, "in", "r#in");
    word::<Pub>(&rt, alloc, "pub", "r#pub");
    word::<Struct>(&rt, alloc, "struct", "r#struct");
}

#[test]
fn union_is_read_as_a_word_and_as_an_identifier(rt: HostRuntime) {
    let alloc = rt.alloc();
    let list = tokens(&rt, alloc, "union union");
    let buffer = buffer_of(&rt, alloc, &list);
    let mut input = ParseStream::new(&buffer, Span::none());
    let word = got(&rt, input.parse::<Union>(alloc));
    is(&rt, word.span == nth(0), "the word");
    is(&rt, is_text(&printed(&rt, alloc, &word), "union"), "prints");
    is(&rt, Union::default().span == Span::none(), "the default");
    ident_is(&rt, alloc, &mut input, "union");
    wants(
        &rt,
        input.parse::<Union>(alloc),
        "unexpected end of input, expected `union`",
        Span::none(),
    );
}

#[test]
fn another_word_is_no_union(rt: HostRuntime) {
    let alloc = rt.alloc();
    for text in ["r#union", "unions", "enum", "{ }"] {
        let list = tokens(&rt, alloc, text);
        let buffer = buffer_of(&rt, alloc, &list);
        let mut input = ParseStream::new(&buffer, Span::none());
        wants(
            &rt,
            input.parse::<Union>(alloc),
            "expected `union`",
            nth(0),
        );
    }
}

fn is_at_builtin(rt: &impl Abort, alloc: Global, text: &str, there: bool) {
    let list = tokens(rt, alloc, text);
    let buffer = buffer_of(rt, alloc, &list);
    let input = ParseStream::new(&buffer, Span::none());
    is(rt, input.peek_builtin() == there, text);
}

#[test]
fn builtin_is_seen(rt: HostRuntime) {
    let alloc = rt.alloc();
    for (text, there) in [
        ("builtin # x", true),
        ("^ builtin $", true),
        ("r#builtin", false),
        ("built", false),
        ("", false),
    ] {
        is_at_builtin(&rt, alloc, text, there);
    }
}

/// Whether the list is a Joint quote here, and then this identifier.
fn is_lifetime(trees: &[TokenTree], at: Span, text: &str) -> bool {
    match trees {
        [TokenTree::Punct(quote), TokenTree::Ident(ident)] => {
            (quote.as_char() == '\'')
                & (quote.spacing() == Spacing::Joint)
                & (quote.span() == at)
                & (ident.text() == text)
        }
        _ => false,
    }
}

fn lifetime_is_read(
    rt: &impl Abort,
    alloc: Global,
    input: &mut ParseStream<'_>,
    at: usize,
    text: &str,
) {
    is(rt, input.peek::<Lifetime>(), text);
    let lifetime = got(rt, Lifetime::parse_any(alloc, input));
    is(rt, lifetime.apostrophe == nth(at), text);
    text_is(rt, lifetime.ident.text(), text);
    let copy = made(rt, lifetime.copy(alloc));
    let out = printed(rt, alloc, &copy);
    is(rt, is_lifetime(out.trees(), nth(at), text), text);
}

#[test]
fn lifetimes_are_read(rt: HostRuntime) {
    let alloc = rt.alloc();
    let list = tokens(&rt, alloc, "' a ' for ^ ' $ r#b c '");
    let buffer = buffer_of(&rt, alloc, &list);
    let mut input = ParseStream::new(&buffer, nth(20));
    lifetime_is_read(&rt, alloc, &mut input, 0, "a");
    lifetime_is_read(&rt, alloc, &mut input, 2, "for");
    lifetime_is_read(&rt, alloc, &mut input, 5, "r#b");
    // none is there, and nothing is taken
    let none = got(&rt, Lifetime::parse_optional_any(alloc, &mut input));
    is(&rt, none.is_none(), "none at c");
    let any = Lifetime::parse_any(alloc, &mut input);
    wants(&rt, any, "expected lifetime", nth(8));
    ident_is(&rt, alloc, &mut input, "c");
    is(&rt, !input.peek::<Lifetime>(), "a quote alone");
    is(&rt, !input.is_empty(), "not the end");
}

fn quote_apart(alloc: Global) -> Result<TokenStream, AllocError> {
    let mut list = TokenStream::new(alloc);
    list.push(TokenTree::Punct(Punct::new('\'', Spacing::Alone, nth(0))))?;
    list.push(TokenTree::Ident(Ident::new(alloc, "a", nth(1))?))?;
    Ok(list)
}

#[test]
fn a_quote_apart_is_no_lifetime(rt: HostRuntime) {
    let alloc = rt.alloc();
    let list = made(&rt, quote_apart(alloc));
    let buffer = buffer_of(&rt, alloc, &list);
    let mut input = ParseStream::new(&buffer, nth(20));
    is(&rt, !input.peek::<Lifetime>(), "peek");
    let none = got(&rt, Lifetime::parse_optional_any(alloc, &mut input));
    is(&rt, none.is_none(), "read");
    let lifetime = Lifetime::new(nth(1), made(&rt, Ident::new(alloc, "x", nth(2))));
    is(&rt, lifetime.apostrophe == nth(1), "its quote");
    is(&rt, lifetime.ident.span() == nth(2), "its name");
}

fn literal(alloc: Global, kind: LitKind, text: &str) -> Result<TokenTree, AllocError> {
    Ok(TokenTree::Literal(Literal::new(alloc, kind, text, nth(0))?))
}

/// A list of one literal.
fn one_literal(rt: &impl Abort, alloc: Global, kind: LitKind, text: &str) -> TokenStream {
    let mut list = TokenStream::new(alloc);
    let literal = made(rt, literal(alloc, kind, text));
    made(rt, list.push(literal));
    list
}

fn literal_is_read(rt: &impl Abort, alloc: Global, kind: LitKind, text: &str) {
    let list = one_literal(rt, alloc, kind, text);
    let buffer = buffer_of(rt, alloc, &list);
    let mut input = ParseStream::new(&buffer, Span::none());
    is(rt, input.peek::<Lit>(), text);
    is(rt, input.peek::<LitStr>() == (kind == LitKind::Str), text);
    let lit = got(rt, input.parse::<Lit>(alloc));
    is(rt, lit.kind() == LitSort::Literal(kind), text);
    text_is(rt, lit.text(), text);
    is(rt, lit.span() == nth(0), text);
    is(rt, input.is_empty(), text);
    let copy = made(rt, lit.copy(alloc));
    is(rt, is_text(&printed(rt, alloc, &copy), text), text);
}

#[test]
fn literals_are_read(rt: HostRuntime) {
    let alloc = rt.alloc();
    for (kind, text) in [
        (LitKind::Str, "\"a\""),
        (LitKind::ByteStr, "b\"a\""),
        (LitKind::CStr, "c\"a\""),
        (LitKind::Byte, "b'a'"),
        (LitKind::Char, "'a'"),
        (LitKind::Int, "1u8"),
        (LitKind::Float, "1.5"),
    ] {
        literal_is_read(&rt, alloc, kind, text);
    }
}

/// A literal that is no single token of its kind: what it is, its text, and how many trees it prints.
fn lit_is_read(
    rt: &impl Abort,
    alloc: Global,
    text: &str,
    sort: LitSort,
    whole: &str,
    trees: usize,
) {
    let list = tokens(rt, alloc, text);
    let buffer = buffer_of(rt, alloc, &list);
    let mut input = ParseStream::new(&buffer, Span::none());
    is(rt, input.peek::<Lit>() & !input.peek::<LitStr>(), text);
    let lit = got(rt, input.parse::<Lit>(alloc));
    is(rt, lit.kind() == sort, text);
    text_is(rt, lit.text(), whole);
    is(rt, input.is_empty(), text);
    let copy = made(rt, lit.copy(alloc));
    is(rt, printed(rt, alloc, &copy).len() == trees, text);
}

#[test]
fn truths_and_negative_numbers_are_literals(rt: HostRuntime) {
    let alloc = rt.alloc();
    let int = LitSort::Literal(LitKind::Int);
    lit_is_read(&rt, alloc, "true", LitSort::Bool, "true", 1);
    lit_is_read(&rt, alloc, "^ false $", LitSort::Bool, "false", 1);
    lit_is_read(&rt, alloc, "- 1", int, "-1", 2);
    lit_is_read(&rt, alloc, "^ - $ 0x1", int, "-0x1", 2);
}

fn lit_is_refused(rt: &impl Abort, alloc: Global, text: &str) {
    let list = tokens(rt, alloc, text);
    let buffer = buffer_of(rt, alloc, &list);
    let mut input = ParseStream::new(&buffer, Span::none());
    is(rt, !input.peek::<Lit>(), text);
    wants(rt, input.parse::<Lit>(alloc), "expected literal", nth(0));
}

#[test]
fn others_are_no_literals(rt: HostRuntime) {
    let alloc = rt.alloc();
    for text in ["r#true", "a", "- a", "- - 1", "+ 1", "( 1 )", "_"] {
        lit_is_refused(&rt, alloc, text);
    }
}

/// A minus, and then a literal.
fn negated(alloc: Global, kind: LitKind, text: &str) -> Result<TokenStream, AllocError> {
    let mut list = TokenStream::new(alloc);
    list.push(TokenTree::Punct(Punct::new('-', Spacing::Joint, nth(0))))?;
    list.push(literal(alloc, kind, text)?)?;
    Ok(list)
}

/// Whether a minus before a literal of this kind is read as one literal.
fn takes_minus(rt: &impl Abort, alloc: Global, kind: LitKind, text: &str, taken: bool) {
    let list = made(rt, negated(alloc, kind, text));
    let buffer = buffer_of(rt, alloc, &list);
    let mut input = ParseStream::new(&buffer, Span::none());
    let there = input.peek::<Lit>();
    let is_read = input.parse::<Lit>(alloc).is_ok();
    is(rt, (there & is_read & input.is_empty()) == taken, text);
}

#[test]
fn a_minus_stands_before_numbers(rt: HostRuntime) {
    let alloc = rt.alloc();
    takes_minus(&rt, alloc, LitKind::Int, "1", true);
    takes_minus(&rt, alloc, LitKind::Float, "1.5", true);
    takes_minus(&rt, alloc, LitKind::Str, "\"a\"", false);
    takes_minus(&rt, alloc, LitKind::Char, "'a'", false);
    takes_minus(&rt, alloc, LitKind::Byte, "b'a'", false);
    takes_minus(&rt, alloc, LitKind::ByteStr, "b\"a\"", false);
    takes_minus(&rt, alloc, LitKind::CStr, "c\"a\"", false);
}

fn lit_is(rt: &impl Abort, lit: &Lit, text: &str, span: Span) {
    text_is(rt, lit.text(), text);
    is(rt, lit.span() == span, text);
}

#[test]
fn literals_are_made(rt: HostRuntime) {
    let alloc = rt.alloc();
    let number = Literal::new(alloc, LitKind::Float, "1.5", Span::new(4, 7));
    let negative = LitNegative::new(alloc, Span::new(2, 3), made(&rt, number));
    let negative = made(&rt, negative);
    is(&rt, negative.minus() == Span::new(2, 3), "its minus");
    text_is(&rt, negative.number().text(), "1.5");
    lit_is(&rt, &Lit::Negative(negative), "-1.5", Span::new(2, 7));
    lit_is(
        &rt,
        &Lit::Bool(LitBool::new(false, nth(3))),
        "false",
        nth(3),
    );
    let char = made(&rt, Literal::new(alloc, LitKind::Char, "'a'", nth(4)));
    lit_is(&rt, &Lit::from(char), "'a'", nth(4));
    let text = made(&rt, LitStr::new(alloc, "\"a\"", nth(5)));
    text_is(&rt, text.text(), "\"a\"");
    let copy = made(&rt, text.copy(alloc));
    is(
        &rt,
        is_text(&printed(&rt, alloc, &copy), "\"a\""),
        "printed",
    );
}

/// The read of the only token of the text is refused, with this text.
fn refuses<T: Parse>(rt: &impl Abort, alloc: Global, list: &TokenStream, text: &str) {
    let buffer = buffer_of(rt, alloc, list);
    let mut input = ParseStream::new(&buffer, nth(9));
    wants(rt, input.parse::<T>(alloc), text, nth(0));
}

#[test]
fn numbers_are_no_strings(rt: HostRuntime) {
    let alloc = rt.alloc();
    let list = tokens(&rt, alloc, "1");
    refuses::<LitStr>(&rt, alloc, &list, "expected string literal");
}

fn index_is_read(rt: &impl Abort, alloc: Global, text: &str, index: u32, digits: &str) {
    let list = one_literal(rt, alloc, LitKind::Int, text);
    let buffer = buffer_of(rt, alloc, &list);
    let mut input = ParseStream::new(&buffer, Span::none());
    let found = got(rt, input.parse::<Index>(alloc));
    is(rt, found.index == index, text);
    is(rt, found.span == nth(0), text);
    is(rt, input.is_empty(), text);
    is(rt, is_text(&printed(rt, alloc, &found), digits), text);
}

#[test]
fn indices_are_read(rt: HostRuntime) {
    let alloc = rt.alloc();
    for (text, index, digits) in [
        ("0", 0, "0"),
        ("7", 7, "7"),
        ("007", 7, "7"),
        ("1_0", 10, "10"),
        ("1_", 1, "1"),
        ("0x1_0", 16, "16"),
        ("0x_f", 15, "15"),
        ("0xFf", 255, "255"),
        ("0b101", 5, "5"),
        ("0o17", 15, "15"),
        ("4294967295", 4294967295, "4294967295"),
        ("0xFFFF_FFFF", 4294967295, "4294967295"),
    ] {
        index_is_read(&rt, alloc, text, index, digits);
    }
}

fn index_is_refused(rt: &impl Abort, alloc: Global, text: &str) {
    let list = one_literal(rt, alloc, LitKind::Int, text);
    let expected = "expected unsuffixed integer of at most 32 bits";
    refuses::<Index>(rt, alloc, &list, expected);
}

#[test]
fn other_numbers_are_no_indices(rt: HostRuntime) {
    let alloc = rt.alloc();
    for text in [
        "1u8",
        "0x1u8",
        "1usize",
        "4294967296",
        "0x1_0000_0000",
        "42949672950",
        "0b2",
        "0o8",
        "0x",
        "0b",
        "0b_",
        "0X1",
        "1e0",
        "",
        "_",
        "-1",
    ] {
        index_is_refused(&rt, alloc, text);
    }
    let float = one_literal(&rt, alloc, LitKind::Float, "1.");
    refuses::<Index>(&rt, alloc, &float, "expected integer literal");
    is(&rt, Index::new(3, nth(1)).index == 3, "made");
}

/// Whether the member is this name or, at no name, this number.
fn is_member(member: &Member, name: &str, number: u32) -> bool {
    match member {
        Member::Named(ident) => ident.text() == name,
        Member::Unnamed(index) => name.is_empty() & (index.index == number),
    }
}

fn member_is_read(
    rt: &impl Abort,
    alloc: Global,
    input: &mut ParseStream<'_>,
    name: &str,
    text: &str,
) {
    let member = got(rt, input.parse::<Member>(alloc));
    is(rt, is_member(&member, name, 0), text);
    let copy = made(rt, member.copy(alloc));
    is(rt, is_text(&printed(rt, alloc, &copy), text), text);
}

#[test]
fn members_are_read(rt: HostRuntime) {
    let alloc = rt.alloc();
    let list = tokens(&rt, alloc, "a ^ 0 $ r#self self + 1u8");
    let buffer = buffer_of(&rt, alloc, &list);
    let mut input = ParseStream::new(&buffer, nth(20));
    member_is_read(&rt, alloc, &mut input, "a", "a");
    member_is_read(&rt, alloc, &mut input, "", "0");
    member_is_read(&rt, alloc, &mut input, "r#self", "r#self");
    let expected = "expected identifier or integer";
    wants(&rt, input.parse::<Member>(alloc), expected, nth(5));
    drop(got(&rt, input.parse::<SelfValue>(alloc)));
    wants(&rt, input.parse::<Member>(alloc), expected, nth(6));
    drop(got(&rt, input.parse::<Plus>(alloc)));
    let expected = "expected unsuffixed integer of at most 32 bits";
    wants(&rt, input.parse::<Member>(alloc), expected, nth(7));
}

/// The name of the limits that it prints; nothing where it is refused.
fn limits_of(rt: &impl Abort, alloc: Global, limits: Result<RangeLimits, Error>) -> &'static str {
    match limits {
        Ok(limits) => name_of(&printed(rt, alloc, &limits)),
        Err(_) => "",
    }
}

fn name_of(list: &TokenStream) -> &'static str {
    if is_mark(list, "..") {
        return "..";
    }
    if is_mark(list, "..=") {
        return "..=";
    }
    "another"
}

/// What is read of the text, and what the older read takes.
fn limits_are(rt: &impl Abort, alloc: Global, text: &str, new: &str, old: &str) {
    let list = tokens(rt, alloc, text);
    let buffer = buffer_of(rt, alloc, &list);
    let mut input = ParseStream::new(&buffer, Span::none());
    let found = input.fork().parse::<RangeLimits>(alloc);
    text_is(rt, limits_of(rt, alloc, found), new);
    let found = RangeLimits::parse_obsolete(alloc, &mut input);
    text_is(rt, limits_of(rt, alloc, found), old);
}

#[test]
fn limits_of_ranges_are_read(rt: HostRuntime) {
    let alloc = rt.alloc();
    for (text, new, old) in [
        ("..", "..", ".."),
        ("..=", "..=", "..="),
        ("...", "", "..="),
        (".. =", "..", ".."),
        (".. .", "..", ".."),
        (".. 1", "..", ".."),
        ("....", "", "..="),
        (". .", "", ""),
        (".", "", ""),
        ("", "", ""),
        ("^ ..= $", "..=", "..="),
    ] {
        limits_are(&rt, alloc, text, new, old);
    }
    let list = tokens(&rt, alloc, "...");
    refuses::<RangeLimits>(&rt, alloc, &list, "expected `..=` or `..`");
}

#[test]
fn invisible_groups_are_read(rt: HostRuntime) {
    let alloc = rt.alloc();
    let list = tokens(&rt, alloc, "^ a ^ b $ ( c ) $ ^ $ d");
    let buffer = buffer_of(&rt, alloc, &list);
    let mut input = ParseStream::new(&buffer, nth(20));
    is(&rt, input.peek::<GroupToken>(), "at a group");
    let (group, mut inside) = got(&rt, input.invisible(alloc));
    is(
        &rt,
        group.span == DelimSpan::new(nth(0), nth(8)),
        "its span",
    );
    is(&rt, input.prev_span() == nth(8), "after it");
    is(&rt, inside.scope() == nth(8), "its scope");
    group_around_another(&rt, alloc, &mut inside);
    input.finish(inside);
    is(&rt, input.left_over() == Some(nth(3)), "b is left over");
    is(&rt, input.peek::<GroupToken>(), "at the empty group");
    let (_, empty) = got(&rt, input.invisible(alloc));
    is(&rt, empty.is_empty(), "it is empty");
    input.finish(empty);
    let more = input.invisible(alloc);
    wants(&rt, more, "expected invisible group", nth(11));
    ident_is(&rt, alloc, &mut input, "d");
}

/// A stream at `a ^ b $ ( c )`.
fn group_around_another(rt: &impl Abort, alloc: Global, inside: &mut ParseStream<'_>) {
    is(rt, !inside.peek::<GroupToken>(), "at a");
    ident_is(rt, alloc, inside, "a");
    let (_, within) = got(rt, inside.invisible(alloc));
    // the inner one is not read, so that `b` is left over
    inside.finish(within);
    let (_, paren) = got(rt, inside.parenthesized(alloc));
    is(rt, inside.is_empty(), "the end of the group");
    is(rt, !inside.peek::<GroupToken>(), "not at the next");
    inside.finish(paren);
}

#[test]
fn invisible_groups_begin_after_others(rt: HostRuntime) {
    let alloc = rt.alloc();
    let list = tokens(&rt, alloc, "^ a $ ^ b $");
    let buffer = buffer_of(&rt, alloc, &list);
    let mut input = ParseStream::new(&buffer, nth(20));
    ident_is(&rt, alloc, &mut input, "a");
    is(&rt, input.peek::<GroupToken>(), "at the second");
    let (group, mut inside) = got(&rt, input.invisible(alloc));
    ident_is(&rt, alloc, &mut inside, "b");
    is(&rt, inside.is_empty() & input.is_empty(), "the end");
    let mut out = TokenStream::new(alloc);
    made(&rt, group.surround(tokens(&rt, alloc, "b"), &mut out));
    let buffer = buffer_of(&rt, alloc, &out);
    let input = ParseStream::new(&buffer, nth(20));
    is(&rt, input.peek::<GroupToken>(), "printed");
    let none = DelimSpan::new(Span::none(), Span::none());
    is(&rt, GroupToken::default().span == none, "of no place");
    let mark = Punct::new('+', Spacing::Joint, nth(4));
    is(&rt, made(&rt, mark.copy(alloc)) == mark, "a copy");
}
