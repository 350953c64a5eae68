//! What patterns that are read from text print, and the texts and places of their refusals.

use crate::answers::says;
use std::alloc::Global;
use syn_pat::place::PatPlace;
use syn_run::readers::{PatternReader, Reader};
use syn_sample::sample::Sample;
use token_core::{Error, Span};
use token_text::{lex, text_of};

/// What all of a text prints once it is read.
fn read(alloc: Global, reader: PatternReader, text: &str) -> Result<String, Error> {
    let tokens = lex(alloc, text)?;
    let print = Reader::Patterns(reader).reprint::<Sample>(alloc, Span::none(), tokens)?;
    Ok(text_of(alloc, &print)?)
}

#[test]
fn patterns_are_chosen_by_their_first_tokens(rt: HostRuntime) {
    let alloc = rt.alloc();
    for (text, wanted) in [
        ("a", "a"),
        ("self", "self"),
        ("self::a", "self :: a"),
        ("Self", "Self"),
        ("super::a", "super :: a"),
        ("crate::A", "crate :: A"),
        ("::A", ":: A"),
        ("_", "_"),
        ("<T>::A", "< T > :: A"),
        ("<T as B>::A", "< T as B > :: A"),
        ("<T>::try", "< T > :: try"),
        ("a!()", "a ! ()"),
        ("a::b!{x}", "a :: b ! { x }"),
        ("::a![]", ":: a ! []"),
        ("-1", "- 1"),
        ("true", "true"),
        ("\"s\"", "\"s\""),
        ("const { a }", "const { a }"),
        ("()", "()"),
        ("[]", "[]"),
        ("&a", "& a"),
        ("..", ".."),
        (
            "try::A",
            "expected one of: identifier, `::`, `<`, `_`, literal, `const`, `ref`, `mut`, `&`, parentheses, square brackets, `..` 0-3 0-3",
        ),
        (
            "=",
            "expected one of: identifier, `::`, `<`, `_`, literal, `const`, `ref`, `mut`, `&`, parentheses, square brackets, `..` 0-1 0-1",
        ),
        (
            "",
            "unexpected end of input, expected one of: identifier, `::`, `<`, `_`, literal, `const`, `ref`, `mut`, `&`, parentheses, square brackets, `..` 0-0 0-0",
        ),
        (
            "...",
            "expected one of: identifier, `::`, `<`, `_`, literal, `const`, `ref`, `mut`, `&`, parentheses, square brackets 0-1 0-1",
        ),
        (
            "...1",
            "expected one of: identifier, `::`, `<`, `_`, literal, `const`, `ref`, `mut`, `&`, parentheses, square brackets 0-1 0-1",
        ),
        ("a::<B>!()", "unexpected token 6-7 6-7"),
        ("a!=b", "unexpected token 1-2 1-2"),
        ("a if b", "unexpected token 2-4 2-4"),
        ("a | b", "unexpected token 2-3 2-3"),
        (
            "| a",
            "expected one of: identifier, `::`, `<`, `_`, literal, `const`, `ref`, `mut`, `&`, parentheses, square brackets, `..` 0-1 0-1",
        ),
        ("A<B>", "unexpected token 1-2 1-2"),
    ] {
        says(&rt, alloc, read(alloc, PatternReader::In(PatPlace::Single), text), wanted);
    }
}

#[test]
fn bindings_and_references_are_read(rt: HostRuntime) {
    let alloc = rt.alloc();
    for (text, wanted) in [
        ("ref a", "ref a"),
        ("mut a", "mut a"),
        ("ref mut a", "ref mut a"),
        ("mut self", "mut self"),
        ("a @ b", "a @ b"),
        ("ref a @ 1..=2", "ref a @ 1 ..= 2"),
        ("a @ b @ c", "a @ b @ c"),
        ("&mut a", "& mut a"),
        ("& mut mut a", "& mut mut a"),
        ("&&a", "& & a"),
        ("&(a | b)", "& (a | b)"),
        ("box a", "box a"),
        ("box box (a, b)", "box box (a , b)"),
        ("(box 1..,a)", "(box 1 .., a)"),
        ("(box 1 .., a)", "(box 1 .., a)"),
        ("ref 1", "expected identifier 4-5 4-5"),
        ("mut ref a", "expected identifier 4-7 4-7"),
        (
            "a @",
            "unexpected end of input, expected one of: identifier, `::`, `<`, `_`, literal, `const`, `ref`, `mut`, `&`, parentheses, square brackets, `..` 0-0 0-0",
        ),
        (
            "&",
            "unexpected end of input, expected one of: identifier, `::`, `<`, `_`, literal, `const`, `ref`, `mut`, `&`, parentheses, square brackets, `..` 0-0 0-0",
        ),
        (
            "box",
            "unexpected end of input, expected one of: identifier, `::`, `<`, `_`, literal, `const`, `ref`, `mut`, `&`, parentheses, square brackets, `..` 0-0 0-0",
        ),
        ("a @ b | c", "unexpected token 6-7 6-7"),
    ] {
        says(&rt, alloc, read(alloc, PatternReader::In(PatPlace::Single), text), wanted);
    }
}

#[test]
fn ranges_are_read(rt: HostRuntime) {
    let alloc = rt.alloc();
    for (text, wanted) in [
        ("1..2", "1 .. 2"),
        ("1..=2", "1 ..= 2"),
        ("1...2", "1 ..= 2"),
        ("1..", "1 .."),
        ("..1", ".. 1"),
        ("..=1", "..= 1"),
        ("-1..-2", "- 1 .. - 2"),
        ("A..B", "A .. B"),
        ("a::B..", "a :: B .."),
        ("<T>::A..=<T>::B", "< T > :: A ..= < T > :: B"),
        ("const { a } ..= 1", "const { a } ..= 1"),
        ("1..const { a; }", "1 .. const { a ; }"),
        ("A..=b::C::<D>", "A ..= b :: C :: < D >"),
        (
            "-a",
            "expected one of: literal, identifier, `::`, `<`, `self`, `Self`, `super`, `crate`, `const` 0-1 0-1",
        ),
        (
            "1..+",
            "expected one of: literal, identifier, `::`, `<`, `self`, `Self`, `super`, `crate`, `const` 3-4 3-4",
        ),
        (
            "1..=",
            "unexpected end of input, expected range upper bound 0-0 0-0",
        ),
        (
            "1...",
            "unexpected end of input, expected range upper bound 0-0 0-0",
        ),
        (
            "..=",
            "unexpected end of input, expected range upper bound 0-0 0-0",
        ),
        (
            "A..=",
            "unexpected end of input, expected range upper bound 0-0 0-0",
        ),
        ("(1..=, a)", "expected range upper bound 5-6 5-6"),
        ("..=if", "expected range upper bound 3-5 3-5"),
        ("1..: a", "unexpected token 3-4 3-4"),
        (
            "const",
            "unexpected end of input, expected curly braces 0-0 0-0",
        ),
        ("const a", "expected curly braces 6-7 6-7"),
    ] {
        says(&rt, alloc, read(alloc, PatternReader::In(PatPlace::Single), text), wanted);
    }
}

#[test]
fn tuples_and_slices_are_read(rt: HostRuntime) {
    let alloc = rt.alloc();
    for (text, wanted) in [
        ("(a)", "(a)"),
        ("(a,)", "(a ,)"),
        ("(a, b)", "(a , b)"),
        ("(..)", "(..)"),
        ("(..,)", "(.. ,)"),
        ("(1..)", "(1 ..)"),
        ("(| a)", "(| a)"),
        ("(| a | b, c)", "(| a | b , c)"),
        ("[a, ..]", "[a , ..]"),
        ("[a, ref i @ .., z]", "[a , ref i @ .. , z]"),
        ("[1..2]", "[1 .. 2]"),
        ("[(1..)]", "[(1 ..)]"),
        ("[x @ 1..]", "[x @ 1 ..]"),
        ("[..]", "[..]"),
        ("[a | 1..]", "[a | 1 ..]"),
        ("(a b)", "expected `,` 3-4 3-4"),
        ("[a b]", "expected `,` 3-4 3-4"),
        (
            "[1..]",
            "range pattern is not allowed unparenthesized inside slice pattern 2-3 3-4",
        ),
        (
            "[..1]",
            "range pattern is not allowed unparenthesized inside slice pattern 1-2 2-3",
        ),
        (
            "[..=1]",
            "range pattern is not allowed unparenthesized inside slice pattern 1-2 3-4",
        ),
        (
            "[a, ..1]",
            "range pattern is not allowed unparenthesized inside slice pattern 4-5 5-6",
        ),
        ("[1.. b]", "[1 .. b]"),
    ] {
        says(&rt, alloc, read(alloc, PatternReader::In(PatPlace::Single), text), wanted);
    }
}

#[test]
fn structs_are_read(rt: HostRuntime) {
    let alloc = rt.alloc();
    for (text, wanted) in [
        ("A()", "A ()"),
        ("A(b, ..)", "A (b , ..)"),
        ("<T>::A(b)", "< T > :: A (b)"),
        ("a::B::<C>(| d)", "a :: B :: < C > (| d)"),
        ("A{}", "A { }"),
        ("A{..}", "A { .. }"),
        ("A{a}", "A { a }"),
        ("A{a, ..}", "A { a , .. }"),
        ("A{a: | b | c, }", "A { a : | b | c , }"),
        ("A{0: a, 1: b}", "A { 0 : a , 1 : b }"),
        ("A{0x1_0: a}", "A { 16 : a }"),
        (
            "A{ref a, mut b, box c, ref mut d, box ref e, box mut f}",
            "A { ref a , mut b , box c , ref mut d , box ref e , box mut f }",
        ),
        ("A{#[x] a: 1, #[y] ..}", "A { # [x] a : 1 , # [y] .. }"),
        ("<T>::A{}", "< T > :: A { }"),
        ("A{a:::B}", "A { a : :: B }"),
        ("A(b c)", "expected `,` 4-5 4-5"),
        ("A{a, ..,}", "unexpected token 7-8 7-8"),
        ("A{0}", "unexpected end of input, expected `:` 3-4 3-4"),
        ("A{box self}", "expected identifier 6-10 6-10"),
        ("A{ref 0}", "expected identifier 6-7 6-7"),
        ("A{a b}", "expected `,` 4-5 4-5"),
        ("A{...}", "unexpected token 4-5 4-5"),
        (
            "A{1u8: a}",
            "expected unsuffixed integer of at most 32 bits 2-5 2-5",
        ),
        ("A{1.0: a}", "expected identifier or integer 2-5 2-5"),
    ] {
        says(&rt, alloc, read(alloc, PatternReader::In(PatPlace::Single), text), wanted);
    }
}

#[test]
fn alternatives_are_read(rt: HostRuntime) {
    let alloc = rt.alloc();
    for (text, wanted) in [
        ("a", "a"),
        ("a | b", "a | b"),
        ("Some(false) | None", "Some (false) | None"),
        ("1... | 2", "expected range upper bound 5-6 5-6"),
        ("a || b", "unexpected token 2-3 2-3"),
        ("a |= b", "unexpected token 2-3 2-3"),
        (
            "a |",
            "unexpected end of input, expected one of: identifier, `::`, `<`, `_`, literal, `const`, `ref`, `mut`, `&`, parentheses, square brackets, `..` 0-0 0-0",
        ),
        (
            "| a",
            "expected one of: identifier, `::`, `<`, `_`, literal, `const`, `ref`, `mut`, `&`, parentheses, square brackets, `..` 0-1 0-1",
        ),
        ("a @ b | c", "a @ b | c"),
    ] {
        says(&rt, alloc, read(alloc, PatternReader::In(PatPlace::Multi), text), wanted);
    }
}

#[test]
fn a_leading_vert_is_read(rt: HostRuntime) {
    let alloc = rt.alloc();
    for (text, wanted) in [
        ("a", "a"),
        ("| a", "| a"),
        ("| a | b", "| a | b"),
        ("a | b", "a | b"),
        (
            "|| a",
            "expected one of: identifier, `::`, `<`, `_`, literal, `const`, `ref`, `mut`, `&`, parentheses, square brackets, `..` 1-2 1-2",
        ),
        ("| a if b", "unexpected token 4-6 4-6"),
        (
            "|",
            "unexpected end of input, expected one of: identifier, `::`, `<`, `_`, literal, `const`, `ref`, `mut`, `&`, parentheses, square brackets, `..` 0-0 0-0",
        ),
    ] {
        says(
            &rt,
            alloc,
            read(alloc, PatternReader::In(PatPlace::LeadingVert), text),
            wanted,
        );
    }
}

#[test]
fn guards_are_read(rt: HostRuntime) {
    let alloc = rt.alloc();
    for (text, wanted) in [
        ("a", "a"),
        ("a if b", "a if b"),
        ("| x if a + 1", "| x if a + 1"),
        ("a | b if c", "a | b if c"),
        (
            "a if",
            "unexpected end of input, expected identifier 0-0 0-0",
        ),
        ("a if b c", "unexpected token 7-8 7-8"),
    ] {
        says(
            &rt,
            alloc,
            read(alloc, PatternReader::Guarded, text),
            wanted,
        );
    }
}

#[test]
fn typed_patterns_are_read(rt: HostRuntime) {
    let alloc = rt.alloc();
    for (text, wanted) in [
        ("x: u8", "x : u8"),
        ("(a, b): (A, B)", "(a , b) : (A , B)"),
        ("a: dyn A + B", "a : dyn A + B"),
        ("a", "unexpected end of input, expected `:` 0-0 0-0"),
        ("a | b: A", "expected `:` 2-3 2-3"),
        (
            "| a: A",
            "expected one of: identifier, `::`, `<`, `_`, literal, `const`, `ref`, `mut`, `&`, parentheses, square brackets, `..` 0-1 0-1",
        ),
    ] {
        says(&rt, alloc, read(alloc, PatternReader::Typed, text), wanted);
    }
}
