//! Choices of more tokens than a list of names would hold. Lists are written as in `core_tests`.

use crate::core_tests::{buffer_of, is, nth, says, tokens};
use token_core::token::{
    And, As, Async, At, Box, Brace, Bracket, Colon, Comma, Const, Crate, DotDot, DotDotDot,
    DotDotEq, Dyn, Enum, Eq, EqEq, Extern, FatArrow, Fn, For, GroupToken, Gt, If, Impl, In, Le, Lt,
    Minus, Mut, Ne, Not, Or, OrEq, OrOr, Paren, PathSep, Plus, Pound, Pub, Question, RArrow, Ref,
    SelfType, SelfValue, Semi, ShlEq, Star, Struct, Super, Try, Underscore, Union, Unsafe, Use,
    Where,
};
use token_core::{ErrorKind, Ident, Lifetime, Lit, LitStr, Lookahead, ParseStream, Word};

/// Tests for each word, those of the first half first.
fn sees_word(look: &mut Lookahead<'_>) -> bool {
    sees_first_word(look)
        | look.peek::<If>()
        | look.peek::<Impl>()
        | look.peek::<Mut>()
        | look.peek::<Ref>()
        | look.peek::<Try>()
        | look.peek::<Unsafe>()
        | look.peek::<Use>()
        | look.peek::<Where>()
        | look.peek::<Underscore>()
        | sees_item_word(look)
}

fn sees_item_word(look: &mut Lookahead<'_>) -> bool {
    look.peek::<Async>()
        | look.peek::<Enum>()
        | look.peek::<In>()
        | look.peek::<Pub>()
        | look.peek::<Struct>()
        | look.peek::<Union>()
}

fn sees_first_word(look: &mut Lookahead<'_>) -> bool {
    look.peek::<SelfType>()
        | look.peek::<SelfValue>()
        | look.peek::<Super>()
        | look.peek::<Crate>()
        | look.peek::<As>()
        | look.peek::<Box>()
        | look.peek::<Const>()
        | look.peek::<Dyn>()
        | look.peek::<Extern>()
        | look.peek::<Fn>()
        | look.peek::<For>()
}

/// Tests for each mark but `+`, those of one character first.
fn sees_mark(look: &mut Lookahead<'_>) -> bool {
    sees_short_mark(look)
        | look.peek::<PathSep>()
        | look.peek::<DotDot>()
        | look.peek::<DotDotDot>()
        | look.peek::<DotDotEq>()
        | look.peek::<EqEq>()
        | look.peek::<FatArrow>()
        | look.peek::<Le>()
        | look.peek::<Ne>()
        | look.peek::<OrEq>()
        | look.peek::<OrOr>()
        | look.peek::<RArrow>()
        | look.peek::<ShlEq>()
}

fn sees_short_mark(look: &mut Lookahead<'_>) -> bool {
    look.peek::<Not>()
        | look.peek::<Lt>()
        | look.peek::<Gt>()
        | look.peek::<Comma>()
        | look.peek::<And>()
        | look.peek::<At>()
        | look.peek::<Colon>()
        | look.peek::<Eq>()
        | look.peek::<Minus>()
        | look.peek::<Or>()
        | look.peek::<Pound>()
        | look.peek::<Question>()
        | look.peek::<Semi>()
        | look.peek::<Star>()
}

/// Tests for what is neither a mark nor a word.
fn sees_other(look: &mut Lookahead<'_>) -> bool {
    look.peek::<GroupToken>()
        | look.peek::<Bracket>()
        | look.peek::<Brace>()
        | look.peek::<Paren>()
        | look.peek::<LitStr>()
        | look.peek::<Lit>()
        | look.peek::<Lifetime>()
        | look.peek::<Ident>()
}

const ALL: &str = "expected one of: invisible group, square brackets, curly braces, parentheses, \
                   string literal, literal, lifetime, identifier, `Self`, `self`, `super`, `crate`, \
                   `as`, `box`, `const`, `dyn`, `extern`, `fn`, `for`, `if`, `impl`, `mut`, `ref`, \
                   `try`, `unsafe`, `use`, `where`, `_`, `async`, `enum`, `in`, `pub`, `struct`, `union`, \
                   `!`, `<`, `>`, `,`, `&`, `@`, `:`, `=`, `-`, `|`, `#`, `?`, `;`, `*`, `::`, `..`, \
                   `...`, `..=`, `==`, `=>`, `<=`, `!=`, `|=`, `||`, `->`, `<<=`";

#[test]
fn choices_name_every_token(rt: HostRuntime) {
    let alloc = rt.alloc();
    let list = tokens(&rt, alloc, "+");
    let buffer = buffer_of(&rt, alloc, &list);
    let mut look = ParseStream::new(&buffer, nth(9)).lookahead1();
    // the second time names nothing more
    for _ in 0..2u8 {
        is(&rt, !sees_other(&mut look), "no other token");
        is(&rt, !sees_word(&mut look), "no word");
        is(&rt, !sees_mark(&mut look), "no other mark");
        is(&rt, look.peek::<Plus>(), "a plus");
        says(&rt, &look.error(alloc), ErrorKind::Expected, ALL, nth(0));
    }
}

#[test]
fn choices_name_marks_and_words_without_a_name(rt: HostRuntime) {
    let alloc = rt.alloc();
    let list = tokens(&rt, alloc, "+");
    let buffer = buffer_of(&rt, alloc, &list);
    let mut look = ParseStream::new(&buffer, nth(9)).lookahead1();
    is(&rt, !look.peek::<Comma>(), "no comma");
    is(&rt, !look.peek::<Word<99>>(), "no word without a name");
    let text = "expected `,` or ``";
    says(&rt, &look.error(alloc), ErrorKind::Expected, text, nth(0));
    is(&rt, !look.peek::<Word<54>>(), "no other one");
    is(&rt, !look.peek::<Comma>(), "no comma again");
    says(&rt, &look.error(alloc), ErrorKind::Expected, text, nth(0));
}
