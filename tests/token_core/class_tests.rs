//! Classes against texts: each word, its raw form, and each mark. Lists are written as in `core_tests`.

use crate::core_tests::{buffer_of, is, tokens};
use std::alloc::Global;
use std::process::Abort;
use token_core::token::{
    And, As, Async, At, Box, Colon, Comma, Const, Crate, DotDot, DotDotDot, DotDotEq, Dyn, Enum,
    Eq, EqEq, Extern, FatArrow, Fn, For, Gt, If, Impl, In, Le, Lt, Minus, Mut, Ne, Not, Or, OrEq,
    OrOr, PathSep, Plus, Pound, Pub, Question, RArrow, Ref, SelfType, SelfValue, Semi, ShlEq, Star,
    Struct, Super, Try, Underscore, Union, Unsafe, Use, Where,
};
use token_core::{Ident, ParseStream, Span, Token, Word};

/// Whether the token is seen at the front of the list.
fn sees<T: Token>(rt: &impl Abort, alloc: Global, list: &str) -> bool {
    let list = tokens(rt, alloc, list);
    let buffer = buffer_of(rt, alloc, &list);
    ParseStream::new(&buffer, Span::none()).peek::<T>()
}

/// The number of the words that see this text.
fn seen_words(rt: &impl Abort, alloc: Global, text: &str) -> u32 {
    let list = tokens(rt, alloc, text);
    let buffer = buffer_of(rt, alloc, &list);
    let input = ParseStream::new(&buffer, Span::none());
    seen_first_words(&input)
        .saturating_add(u32::from(input.peek::<If>()))
        .saturating_add(u32::from(input.peek::<Impl>()))
        .saturating_add(u32::from(input.peek::<Mut>()))
        .saturating_add(u32::from(input.peek::<Ref>()))
        .saturating_add(u32::from(input.peek::<Try>()))
        .saturating_add(u32::from(input.peek::<Unsafe>()))
        .saturating_add(u32::from(input.peek::<Use>()))
        .saturating_add(u32::from(input.peek::<Where>()))
        .saturating_add(u32::from(input.peek::<Underscore>()))
        .saturating_add(seen_item_words(&input))
}

fn seen_item_words(input: &ParseStream<'_>) -> u32 {
    u32::from(input.peek::<Async>())
        .saturating_add(u32::from(input.peek::<Enum>()))
        .saturating_add(u32::from(input.peek::<In>()))
        .saturating_add(u32::from(input.peek::<Pub>()))
        .saturating_add(u32::from(input.peek::<Struct>()))
        .saturating_add(u32::from(input.peek::<Union>()))
}

fn seen_first_words(input: &ParseStream<'_>) -> u32 {
    u32::from(input.peek::<SelfType>())
        .saturating_add(u32::from(input.peek::<SelfValue>()))
        .saturating_add(u32::from(input.peek::<Super>()))
        .saturating_add(u32::from(input.peek::<Crate>()))
        .saturating_add(u32::from(input.peek::<As>()))
        .saturating_add(u32::from(input.peek::<Box>()))
        .saturating_add(u32::from(input.peek::<Const>()))
        .saturating_add(u32::from(input.peek::<Dyn>()))
        .saturating_add(u32::from(input.peek::<Extern>()))
        .saturating_add(u32::from(input.peek::<Fn>()))
        .saturating_add(u32::from(input.peek::<For>()))
}

/// A word is seen by its own test alone, and its raw form by none.
fn word<const N: u32>(rt: &impl Abort, alloc: Global, text: &str, raw: &str, longer: &str) {
    is(rt, sees::<Word<N>>(rt, alloc, text), text);
    is(rt, seen_words(rt, alloc, text) == 1, text);
    is(rt, !sees::<Ident>(rt, alloc, text), text);
    is(rt, seen_words(rt, alloc, raw) == 0, raw);
    is(rt, sees::<Ident>(rt, alloc, raw), raw);
    is(rt, seen_words(rt, alloc, longer) == 0, longer);
    is(rt, sees::<Ident>(rt, alloc, longer), longer);
}

#[test]
fn each_word_has_a_class_of_its_own(rt: HostRuntime) {
    let alloc = rt.alloc();
    word::<0>(&rt, alloc, "Self", "r#Self", "Selfs");
    word::<1>(&rt, alloc, "self", "r#self", "selfs");
    word::<2>(&rt, alloc, "super", "r#super", "supers");
    word::<3>(&rt, alloc, "crate", "r#crate", "crates");
    word::<4>(&rt, alloc, "as", "r#as", "ass");
    word::<5>(&rt, alloc, "box", "r#box", "boxs");
    word::<6>(&rt, alloc, "const", "r#const", "consts");
    word::<7>(&rt, alloc, "dyn", "r#dyn", "dyns");
    word::<8>(&rt, alloc, "extern", "r#extern", "externs");
    word::<9>(&rt, alloc, "fn", "r#fn", "fns");
}

#[test]
fn each_other_word_has_a_class_of_its_own(rt: HostRuntime) {
    let alloc = rt.alloc();
    word::<10>(&rt, alloc, "for", "r#for", "fors");
    word::<11>(&rt, alloc, "if", "r#if", "ifs");
    word::<12>(&rt, alloc, "impl", "r#impl", "impls");
    word::<13>(&rt, alloc, "mut", "r#mut", "muts");
    word::<14>(&rt, alloc, "ref", "r#ref", "refs");
    word::<15>(&rt, alloc, "try", "r#try", "trys");
    word::<16>(&rt, alloc, "unsafe", "r#unsafe", "unsafes");
    word::<17>(&rt, alloc, "use", "r#use", "uses");
    word::<18>(&rt, alloc, "where", "r#where", "wheres");
    word::<19>(&rt, alloc, "_", "r#_", "_s");
}

#[test]
fn each_word_of_items_has_a_class_of_its_own(rt: HostRuntime) {
    let alloc = rt.alloc();
    word::<21>(&rt, alloc, "async", "r#async", "asyncs");
    word::<28>(&rt, alloc, "enum", "r#enum", "enums");
    word::<31>(&rt, alloc, "in", "r#in", "ins");
    word::<40>(&rt, alloc, "pub", "r#pub", "pubs");
    word::<43>(&rt, alloc, "struct", "r#struct", "structs");
}

#[test]
fn union_is_a_word_and_an_identifier(rt: HostRuntime) {
    let alloc = rt.alloc();
    is(&rt, sees::<Union>(&rt, alloc, "union"), "a union");
    is(&rt, sees::<Ident>(&rt, alloc, "union"), "an identifier");
    is(&rt, seen_words(&rt, alloc, "union") == 1, "one word");
    is(&rt, !sees::<Union>(&rt, alloc, "r#union"), "raw");
    is(&rt, !sees::<Union>(&rt, alloc, "unions"), "longer");
    is(&rt, !sees::<Union>(&rt, alloc, "unsized"), "another");
    is(&rt, sees::<Union>(&rt, alloc, "^ union $"), "in a group");
}

/// The keywords that are no named words, and `builtin`.
static OTHERS: [&str; 28] = [
    "abstract", "await", "become", "break", "continue", "do", "else", "false", "final", "let",
    "loop", "macro", "match", "mod", "move", "override", "priv", "return", "static", "trait",
    "true", "type", "typeof", "unsized", "virtual", "while", "yield", "builtin",
];

#[test]
fn each_keyword_is_its_text(rt: HostRuntime) {
    let alloc = rt.alloc();
    for text in &OTHERS {
        let list = tokens(&rt, alloc, text);
        let buffer = buffer_of(&rt, alloc, &list);
        let input = ParseStream::new(&buffer, Span::none());
        is(&rt, input.peek_word(text), text);
        is(&rt, input.peek_any_ident(), text);
        is(&rt, input.peek_ident() == (*text == "builtin"), text);
        is(&rt, input.peek_builtin() == (*text == "builtin"), text);
        is(&rt, seen_words(&rt, alloc, text) == 0, text);
    }
}

/// A mark is seen where it stands and before another one, and not where its characters stand apart.
fn mark<T: Token>(rt: &impl Abort, alloc: Global, text: &str, glued: &str, other: &str) {
    is(rt, sees::<T>(rt, alloc, text), text);
    is(rt, sees::<T>(rt, alloc, glued), glued);
    is(rt, !sees::<T>(rt, alloc, other), other);
    is(rt, !sees::<T>(rt, alloc, "a"), text);
    is(rt, !sees::<T>(rt, alloc, ""), text);
}

#[test]
fn each_mark_is_its_characters(rt: HostRuntime) {
    let alloc = rt.alloc();
    mark::<And>(&rt, alloc, "&", "&>", ">");
    mark::<At>(&rt, alloc, "@", "@>", ">");
    mark::<Colon>(&rt, alloc, ":", ":>", ">");
    mark::<Comma>(&rt, alloc, ",", ",>", ">");
    mark::<DotDot>(&rt, alloc, "..", "..>", ". .");
    mark::<DotDotDot>(&rt, alloc, "...", "...>", ".. .");
    mark::<DotDotEq>(&rt, alloc, "..=", "..=>", ".. =");
    mark::<Eq>(&rt, alloc, "=", "=>", ">");
    mark::<EqEq>(&rt, alloc, "==", "==>", "= =");
    mark::<FatArrow>(&rt, alloc, "=>", "=>>", "= >");
    mark::<Gt>(&rt, alloc, ">", ">>", "<");
    mark::<Le>(&rt, alloc, "<=", "<=>", "< =");
    mark::<Lt>(&rt, alloc, "<", "<>", ">");
    mark::<Minus>(&rt, alloc, "-", "->", ">");
}

#[test]
fn each_other_mark_is_its_characters(rt: HostRuntime) {
    let alloc = rt.alloc();
    mark::<Ne>(&rt, alloc, "!=", "!=>", "! =");
    mark::<Not>(&rt, alloc, "!", "!>", ">");
    mark::<Or>(&rt, alloc, "|", "|>", ">");
    mark::<OrEq>(&rt, alloc, "|=", "|=>", "| =");
    mark::<OrOr>(&rt, alloc, "||", "||>", "| |");
    mark::<PathSep>(&rt, alloc, "::", "::>", ": :");
    mark::<Plus>(&rt, alloc, "+", "+>", ">");
    mark::<Pound>(&rt, alloc, "#", "#>", ">");
    mark::<Question>(&rt, alloc, "?", "?>", ">");
    mark::<RArrow>(&rt, alloc, "->", "->>", "- >");
    mark::<Semi>(&rt, alloc, ";", ";>", ">");
    mark::<ShlEq>(&rt, alloc, "<<=", "<<=>", "<< =");
    mark::<Star>(&rt, alloc, "*", "*>", ">");
}
