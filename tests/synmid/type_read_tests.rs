//! What types, paths, bounds and parameters that are read from text print, and the texts and places of their refusals.

use crate::answers::says;
use std::alloc::Global;
use std::fmt::Write;
use syn_readers::by_name::{GenericsReader, PathReader, TypeReader};
use syn_run::readers::Reader;
use syn_sample::sample::Sample;
use token_core::{Error, Span};
use token_text::{lex, text_of};

/// What all of a text prints once it is read.
fn read(alloc: Global, reader: Reader, text: &str) -> Result<String, Error> {
    let tokens = lex(alloc, text)?;
    let print = reader.reprint::<Sample>(alloc, Span::none(), tokens)?;
    Ok(text_of(alloc, &print)?)
}

#[test]
fn types_are_read(rt: HostRuntime) {
    let alloc = rt.alloc();
    for (text, wanted) in [
        ("A", "A"),
        ("::a::B", ":: a :: B"),
        ("Self", "Self"),
        ("_", "_"),
        ("!", "!"),
        ("a::b!{x}", "a :: b ! { x }"),
        ("(A)", "(A)"),
        ("[A]", "[A]"),
        ("[[A]; 2]", "[[A] ; 2]"),
        ("[u8; a + 1]", "[u8 ; a + 1]"),
        ("[A; (1 + b)]", "[A ; (1 + b)]"),
        ("*const A", "* const A"),
        ("*mut A", "* mut A"),
        ("&A", "& A"),
        ("&'a mut A", "& 'a mut A"),
        ("&mut &'a A", "& mut & 'a A"),
        ("&&A", "& & A"),
        ("Vec<T>", "Vec < T >"),
        ("Vec<Vec<T>>", "Vec < Vec < T > >"),
        (
            "Map<'a, K, 3, { 4 }, Item = V, N = 1, It: A + B>",
            "Map < 'a , K , 3 , { 4 } , Item = V , N = 1 , It : A + B >",
        ),
        ("a::<B>::c", "a :: < B > :: c"),
        (
            "try::a",
            "expected one of: `for`, parentheses, `unsafe`, `fn`, `extern`, identifier, `::`, `<`, `dyn`, square brackets, `*`, `&`, `!`, `impl`, `_`, lifetime 0-3 0-3",
        ),
        ("self::A", "self :: A"),
        ("super::A<B>", "super :: A < B >"),
        ("crate::A", "crate :: A"),
        ("<A as b::C>::D", "< A as b :: C > :: D"),
        ("<A>::B::C", "< A > :: B :: C"),
        ("Fn(A)", "unexpected token 2-3 2-3"),
        ("A!=B", "unexpected token 1-2 1-2"),
        (
            "1",
            "expected one of: `for`, parentheses, `unsafe`, `fn`, `extern`, identifier, `::`, `<`, `dyn`, square brackets, `*`, `&`, `!`, `impl`, `_`, lifetime 0-1 0-1",
        ),
        (
            "",
            "unexpected end of input, expected one of: `for`, parentheses, `unsafe`, `fn`, `extern`, identifier, `::`, `<`, `dyn`, square brackets, `*`, `&`, `!`, `impl`, `_`, lifetime 0-0 0-0",
        ),
    ] {
        says(
            &rt,
            alloc,
            read(alloc, Reader::Types(TypeReader::Any), text),
            wanted,
        );
    }
}

#[test]
fn trait_objects_are_read(rt: HostRuntime) {
    let alloc = rt.alloc();
    for (text, wanted) in [
        ("dyn A", "dyn A"),
        ("dyn A + 'a + B", "dyn A + 'a + B"),
        ("A + B", "A + B"),
        ("A + 'a", "A + 'a"),
        ("'a + A", "'a + A"),
        ("for<'a> A<'a>", "for < 'a > A < 'a >"),
        ("for<'a> A + B", "for < 'a > A + B"),
        (
            "dyn for<'a> Fn(&'a A) -> B + C",
            "dyn for < 'a > Fn (& 'a A) -> B + C",
        ),
        ("dyn ?A", "dyn ? A"),
        ("(A) + B", "(A) + B"),
        ("(?A)", "(? A)"),
        ("(?A) + B", "(? A) + B"),
        ("(dyn A)", "(dyn A)"),
        ("('a + A)", "('a + A)"),
        ("dyn A +", "dyn A +"),
        ("A + B +", "A + B +"),
        ("(A + B) + C", "unexpected token 8-9 8-9"),
        ("&A + B", "unexpected token 3-4 3-4"),
        ("*const A + B", "unexpected token 9-10 9-10"),
        ("&dyn A + B", "unexpected token 7-8 7-8"),
        ("&(A + B)", "& (A + B)"),
        ("A<>(B)", "unexpected token 3-4 3-4"),
        ("dyn A<>(B)", "dyn A (B)"),
        ("dyn A::(B) -> C", "dyn A (B) -> C"),
        ("dyn (A) + B", "dyn (A) + B"),
        ("dyn *A", "dyn * A"),
    ] {
        says(
            &rt,
            alloc,
            read(alloc, Reader::Types(TypeReader::Any), text),
            wanted,
        );
    }
}

#[test]
fn trait_objects_are_refused(rt: HostRuntime) {
    let alloc = rt.alloc();
    for (text, wanted) in [
        (
            "dyn",
            "unexpected end of input, expected identifier 0-0 0-0",
        ),
        (
            "dyn 'a",
            "at least one trait is required for an object type 0-3 5-6",
        ),
        (
            "dyn 'a + 'b",
            "at least one trait is required for an object type 0-3 10-11",
        ),
        (
            "'a + 'b",
            "at least one trait is required for an object type 0-1 6-7",
        ),
        ("impl 'a", "at least one trait must be specified 0-4 6-7"),
        (
            "impl 'a + 'b",
            "at least one trait must be specified 0-4 11-12",
        ),
        (
            "impl use<'a>",
            "at least one trait must be specified 0-4 11-12",
        ),
        (
            "dyn use<'a>",
            "`use<...>` precise capturing syntax is not allowed here 4-7 10-11",
        ),
        (
            "dyn A + use<'a, T>",
            "`use<...>` precise capturing syntax is not allowed here 8-11 17-18",
        ),
        ("dyn const A", "`const` is not allowed here 4-9 4-9"),
        ("dyn [const] A", "`[const]` is not allowed here 4-11 4-11"),
        (
            "dyn for<'a> ?A",
            "`for<...>` binder not allowed with `?` trait polarity modifier 12-13 12-13",
        ),
        (
            "dyn ?for<'a> A",
            "`for<...>` binder not allowed with `?` trait polarity modifier 4-5 4-5",
        ),
        (
            "for<'a> [A]",
            "expected one of: identifier, `fn`, `unsafe`, `extern`, `super`, `self`, `Self`, `crate` 8-9 8-9",
        ),
        (
            "for<'a> _",
            "expected one of: identifier, `fn`, `unsafe`, `extern`, `super`, `self`, `Self`, `crate` 8-9 8-9",
        ),
        ("fn A", "expected parentheses 3-4 3-4"),
    ] {
        says(
            &rt,
            alloc,
            read(alloc, Reader::Types(TypeReader::Any), text),
            wanted,
        );
    }
}

#[test]
fn impl_types_are_read(rt: HostRuntime) {
    let alloc = rt.alloc();
    for (reader, text, wanted) in [
        (Reader::Types(TypeReader::Any), "impl A", "impl A"),
        (
            Reader::Types(TypeReader::Any),
            "impl A + 'a + use<'b, T, Self>",
            "impl A + 'a + use < 'b , T , Self >",
        ),
        (
            Reader::Types(TypeReader::Any),
            "impl ?A + B",
            "impl ? A + B",
        ),
        (
            Reader::Types(TypeReader::Any),
            "impl const A",
            "impl const A",
        ),
        (
            Reader::Types(TypeReader::Any),
            "impl [const] A + B",
            "impl [const] A + B",
        ),
        (
            Reader::Types(TypeReader::Any),
            "impl for<'a> A",
            "impl for < 'a > A",
        ),
        (
            Reader::Types(TypeReader::Any),
            "impl (for<'a> A)",
            "impl (for < 'a > A)",
        ),
        (Reader::Types(TypeReader::Any), "impl A +", "impl A +"),
        (
            Reader::Types(TypeReader::ImplTrait),
            "impl A + B",
            "impl A + B",
        ),
        (
            Reader::Types(TypeReader::ImplTrait),
            "A",
            "expected `impl` 0-1 0-1",
        ),
        (
            Reader::Types(TypeReader::ImplWithoutPlus),
            "impl A",
            "impl A",
        ),
        (
            Reader::Types(TypeReader::ImplWithoutPlus),
            "impl A + B",
            "unexpected token 7-8 7-8",
        ),
    ] {
        says(&rt, alloc, read(alloc, reader, text), wanted);
    }
}

#[test]
fn plus_is_left(rt: HostRuntime) {
    let alloc = rt.alloc();
    for (reader, text, wanted) in [
        (Reader::Types(TypeReader::WithoutPlus), "A", "A"),
        (
            Reader::Types(TypeReader::WithoutPlus),
            "A + B",
            "unexpected token 2-3 2-3",
        ),
        (Reader::Types(TypeReader::WithoutPlus), "dyn A", "dyn A"),
        (
            Reader::Types(TypeReader::WithoutPlus),
            "dyn A + B",
            "unexpected token 6-7 6-7",
        ),
        (
            Reader::Types(TypeReader::WithoutPlus),
            "impl A + B",
            "unexpected token 7-8 7-8",
        ),
        (Reader::Types(TypeReader::WithoutPlus), "'a + A", "'a + A"),
        (
            Reader::Types(TypeReader::WithoutPlus),
            "(?A) + B",
            "(? A) + B",
        ),
        (
            Reader::Types(TypeReader::WithoutPlus),
            "(A) + B",
            "unexpected token 4-5 4-5",
        ),
        (
            Reader::Types(TypeReader::TraitObject),
            "dyn A + B",
            "dyn A + B",
        ),
        (Reader::Types(TypeReader::TraitObject), "A + 'a", "A + 'a"),
        (Reader::Types(TypeReader::TraitObject), "'a + A", "'a + A"),
        (Reader::Types(TypeReader::TraitObject), "(A) + B", "(A) + B"),
        (
            Reader::Types(TypeReader::TraitObject),
            "'a",
            "at least one trait is required for an object type 0-1 1-2",
        ),
        (
            Reader::Types(TypeReader::TraitObject),
            "1",
            "expected identifier 0-1 0-1",
        ),
        (
            Reader::Types(TypeReader::ObjectWithoutPlus),
            "dyn A",
            "dyn A",
        ),
        (
            Reader::Types(TypeReader::ObjectWithoutPlus),
            "dyn A + B",
            "unexpected token 6-7 6-7",
        ),
        (Reader::Types(TypeReader::ReturnWithoutPlus), "-> A", "-> A"),
        (
            Reader::Types(TypeReader::ReturnWithoutPlus),
            "-> A + B",
            "unexpected token 5-6 5-6",
        ),
    ] {
        says(&rt, alloc, read(alloc, reader, text), wanted);
    }
}

#[test]
fn functions_are_read(rt: HostRuntime) {
    let alloc = rt.alloc();
    for (reader, text, wanted) in [
        (Reader::Types(TypeReader::Any), "fn()", "fn ()"),
        (
            Reader::Types(TypeReader::Any),
            "fn(A, B) -> C",
            "fn (A , B) -> C",
        ),
        (
            Reader::Types(TypeReader::Any),
            "unsafe extern \"C\" fn(a: A, _: B)",
            "unsafe extern \"C\" fn (a : A , _ : B)",
        ),
        (
            Reader::Types(TypeReader::Any),
            "extern fn()",
            "extern fn ()",
        ),
        (
            Reader::Types(TypeReader::Any),
            "for<'a> fn(&'a A) -> &'a B",
            "for < 'a > fn (& 'a A) -> & 'a B",
        ),
        (
            Reader::Types(TypeReader::Any),
            "fn(self: A)",
            "fn (self : A)",
        ),
        (
            Reader::Types(TypeReader::Any),
            "fn(mut self)",
            "fn (mut self)",
        ),
        (
            Reader::Types(TypeReader::Any),
            "fn(mut self: A, B)",
            "fn (mut self : A , B)",
        ),
        (
            Reader::Types(TypeReader::Any),
            "fn(x: mut self)",
            "fn (x : mut self)",
        ),
        (Reader::Types(TypeReader::Any), "fn(...)", "fn (...)"),
        (Reader::Types(TypeReader::Any), "fn(A, ...)", "fn (A , ...)"),
        (
            Reader::Types(TypeReader::Any),
            "fn(A, x: ..., )",
            "fn (A , x : ... ,)",
        ),
        (
            Reader::Types(TypeReader::Any),
            "fn(#[a] x: A, #[b] ...) -> !",
            "fn (# [a] x : A , # [b] ...) -> !",
        ),
        (
            Reader::Types(TypeReader::Any),
            "fn() -> A + B",
            "unexpected token 10-11 10-11",
        ),
        (
            Reader::Types(TypeReader::Any),
            "fn(self: A, self: B)",
            "expected `,` 16-17 16-17",
        ),
        (
            Reader::Types(TypeReader::Any),
            "fn(a: ..., b: C)",
            "unexpected token 11-12 11-12",
        ),
        (
            Reader::Types(TypeReader::Any),
            "fn",
            "unexpected end of input, expected parentheses 0-0 0-0",
        ),
        (
            Reader::Types(TypeReader::Any),
            "unsafe",
            "unexpected end of input, expected `fn` 0-0 0-0",
        ),
        (
            Reader::Types(TypeReader::Any),
            "extern \"C\"",
            "unexpected end of input, expected `fn` 0-0 0-0",
        ),
        (Reader::Types(TypeReader::FnPtr), "fn()", "fn ()"),
        (
            Reader::Types(TypeReader::FnPtr),
            "for<'a> unsafe fn(A)",
            "for < 'a > unsafe fn (A)",
        ),
        (
            Reader::Types(TypeReader::FnPtr),
            "A",
            "expected `fn` 0-1 0-1",
        ),
        (Reader::Types(TypeReader::Abi), "extern", "extern"),
        (
            Reader::Types(TypeReader::Abi),
            "extern \"C\"",
            "extern \"C\"",
        ),
        (
            Reader::Types(TypeReader::Abi),
            "\"C\"",
            "expected `extern` 0-3 0-3",
        ),
        (Reader::Types(TypeReader::OptionalAbi), "", ""),
        (
            Reader::Types(TypeReader::OptionalAbi),
            "extern \"C\"",
            "extern \"C\"",
        ),
    ] {
        says(&rt, alloc, read(alloc, reader, text), wanted);
    }
}

#[test]
fn arguments_and_outputs_are_read(rt: HostRuntime) {
    let alloc = rt.alloc();
    for (reader, text, wanted) in [
        (Reader::Types(TypeReader::NamedArg), "A", "A"),
        (Reader::Types(TypeReader::NamedArg), "x: A", "x : A"),
        (Reader::Types(TypeReader::NamedArg), "_: A", "_ : A"),
        (
            Reader::Types(TypeReader::NamedArg),
            "#[a] x: A",
            "# [a] x : A",
        ),
        (
            Reader::Types(TypeReader::NamedArg),
            "self: A",
            "unexpected token 4-5 4-5",
        ),
        (
            Reader::Types(TypeReader::NamedArg),
            "mut self",
            "expected one of: `for`, parentheses, `unsafe`, `fn`, `extern`, identifier, `::`, `<`, `dyn`, square brackets, `*`, `&`, `!`, `impl`, `_`, lifetime 0-3 0-3",
        ),
        (Reader::Types(TypeReader::Return), "", ""),
        (Reader::Types(TypeReader::Return), "-> A", "-> A"),
        (Reader::Types(TypeReader::Return), "-> A + B", "-> A + B"),
        (
            Reader::Types(TypeReader::Return),
            "->",
            "unexpected end of input, expected one of: `for`, parentheses, `unsafe`, `fn`, `extern`, identifier, `::`, `<`, `dyn`, square brackets, `*`, `&`, `!`, `impl`, `_`, lifetime 0-0 0-0",
        ),
        (
            Reader::Types(TypeReader::Return),
            "A",
            "unexpected token 0-1 0-1",
        ),
    ] {
        says(&rt, alloc, read(alloc, reader, text), wanted);
    }
}

#[test]
fn verbatim_types_are_read(rt: HostRuntime) {
    let alloc = rt.alloc();
    for (text, wanted) in [
        ("unsafe<'a> A", "unsafe < 'a > A"),
        ("unsafe<'a, 'b,> fn()", "unsafe < 'a , 'b ,> fn ()"),
        ("builtin # x(y z)", "builtin # x (y z)"),
        ("for<'a> builtin # x()", "for < 'a > builtin # x ()"),
        ("builtin", "builtin"),
        (
            "builtin # x",
            "unexpected end of input, expected parentheses 0-0 0-0",
        ),
    ] {
        says(
            &rt,
            alloc,
            read(alloc, Reader::Types(TypeReader::Any), text),
            wanted,
        );
    }
}

#[test]
fn tokens_as_written_keep_the_invisible_groups_that_were_read(rt: HostRuntime) {
    let alloc = rt.alloc();
    for (text, wanted) in [
        ("dyn *\\(A\\)", "dyn * \\(A\\)"),
        ("dyn \\(*A\\)", "dyn \\(* A\\)"),
        ("(dyn *\\(\\(A\\)\\))", "(dyn * \\(\\(A\\)\\))"),
        ("builtin # x \\((y)\\)", "builtin # x \\((y)\\)"),
        ("unsafe<'a> \\(A\\)", "unsafe < 'a > \\(A\\)"),
        ("fn(mut \\(self\\))", "fn (mut \\(self\\))"),
        // a bound is no such form, and keeps none
        ("impl const \\(A\\)", "impl const A"),
        ("impl \\((const A)\\)", "impl (const A)"),
        ("impl \\(const\\) A + B", "impl const A + B"),
        ("impl \\(const A + B\\)", "impl const A + B"),
    ] {
        says(
            &rt,
            alloc,
            read(alloc, Reader::Types(TypeReader::Any), text),
            wanted,
        );
    }
}

#[test]
fn tuples_are_told_from_parentheses(rt: HostRuntime) {
    let alloc = rt.alloc();
    for (reader, text, wanted) in [
        (Reader::Types(TypeReader::Any), "()", "()"),
        (Reader::Types(TypeReader::Any), "(A)", "(A)"),
        (Reader::Types(TypeReader::Any), "(A,)", "(A ,)"),
        (Reader::Types(TypeReader::Any), "(A, B,)", "(A , B ,)"),
        (
            Reader::Types(TypeReader::Any),
            "((A, B), !, _)",
            "((A , B) , ! , _)",
        ),
        (
            Reader::Types(TypeReader::Any),
            "(A B)",
            "unexpected token 3-4 3-4",
        ),
        (
            Reader::Types(TypeReader::Any),
            "(,)",
            "expected one of: `for`, parentheses, `unsafe`, `fn`, `extern`, identifier, `::`, `<`, `dyn`, square brackets, `*`, `&`, `!`, `impl`, `_`, lifetime 1-2 1-2",
        ),
        (
            Reader::Types(TypeReader::Any),
            "('a + A, B)",
            "unexpected token 7-8 7-8",
        ),
        (Reader::Types(TypeReader::Tuple), "()", "()"),
        (Reader::Types(TypeReader::Tuple), "(A,)", "(A ,)"),
        (
            Reader::Types(TypeReader::Tuple),
            "('a + A, B)",
            "('a + A , B)",
        ),
        (
            Reader::Types(TypeReader::Tuple),
            "(A)",
            "unexpected end of input, expected `,` 2-3 2-3",
        ),
        (
            Reader::Types(TypeReader::Tuple),
            "(A B)",
            "expected `,` 3-4 3-4",
        ),
        (Reader::Types(TypeReader::Paren), "(A)", "(A)"),
        (
            Reader::Types(TypeReader::Paren),
            "(A + B)",
            "unexpected token 3-4 3-4",
        ),
        (
            Reader::Types(TypeReader::Paren),
            "(A,)",
            "unexpected token 2-3 2-3",
        ),
        (
            Reader::Types(TypeReader::Paren),
            "()",
            "unexpected end of input, expected one of: `for`, parentheses, `unsafe`, `fn`, `extern`, identifier, `::`, `<`, `dyn`, square brackets, `*`, `&`, `!`, `impl`, `_`, lifetime 1-2 1-2",
        ),
    ] {
        says(&rt, alloc, read(alloc, reader, text), wanted);
    }
}

#[test]
fn slices_are_told_from_arrays(rt: HostRuntime) {
    let alloc = rt.alloc();
    for (reader, text, wanted) in [
        (Reader::Types(TypeReader::Slice), "[A]", "[A]"),
        (Reader::Types(TypeReader::Slice), "[A + B]", "[A + B]"),
        (
            Reader::Types(TypeReader::Slice),
            "[A; 1]",
            "unexpected token 2-3 2-3",
        ),
        (
            Reader::Types(TypeReader::Slice),
            "[]",
            "unexpected end of input, expected one of: `for`, parentheses, `unsafe`, `fn`, `extern`, identifier, `::`, `<`, `dyn`, square brackets, `*`, `&`, `!`, `impl`, `_`, lifetime 1-2 1-2",
        ),
        (Reader::Types(TypeReader::Array), "[A; 1]", "[A ; 1]"),
        (
            Reader::Types(TypeReader::Array),
            "[A]",
            "unexpected end of input, expected `;` 2-3 2-3",
        ),
        (
            Reader::Types(TypeReader::Array),
            "[A; 1 2]",
            "unexpected token 6-7 6-7",
        ),
        (
            Reader::Types(TypeReader::Array),
            "[u8; ]",
            "unexpected end of input, expected identifier 5-6 5-6",
        ),
    ] {
        says(&rt, alloc, read(alloc, reader, text), wanted);
    }
}

#[test]
fn pointers_have_a_mutability(rt: HostRuntime) {
    let alloc = rt.alloc();
    for (reader, text, wanted) in [
        (Reader::PointerMutability, "const", "const"),
        (Reader::PointerMutability, "mut", "mut"),
        (
            Reader::PointerMutability,
            "A",
            "expected `const` or `mut` 0-1 0-1",
        ),
        (Reader::Types(TypeReader::Ptr), "*const A", "* const A"),
        (
            Reader::Types(TypeReader::Ptr),
            "*A",
            "expected `const` or `mut` 1-2 1-2",
        ),
        (Reader::Types(TypeReader::Ptr), "&A", "expected `*` 0-1 0-1"),
        (Reader::Types(TypeReader::Reference), "&A", "& A"),
        (Reader::Types(TypeReader::Reference), "&'a A", "& 'a A"),
        (
            Reader::Types(TypeReader::Reference),
            "*const A",
            "expected `&` 0-1 0-1",
        ),
    ] {
        says(&rt, alloc, read(alloc, reader, text), wanted);
    }
}

#[test]
fn forms_are_read_alone(rt: HostRuntime) {
    let alloc = rt.alloc();
    for (reader, text, wanted) in [
        (Reader::Types(TypeReader::Path), "try::a", "try :: a"),
        (Reader::Types(TypeReader::Path), "A<B>", "A < B >"),
        (
            Reader::Types(TypeReader::Path),
            "<A as B>::C",
            "< A as B > :: C",
        ),
        (Reader::Types(TypeReader::Path), "<A>::B", "< A > :: B"),
        (
            Reader::Types(TypeReader::Path),
            "_",
            "expected identifier 0-1 0-1",
        ),
        (
            Reader::Types(TypeReader::Path),
            "<A>",
            "unexpected end of input, expected `::` 0-0 0-0",
        ),
        (Reader::Types(TypeReader::Macro), "m!()", "m ! ()"),
        (
            Reader::Types(TypeReader::Macro),
            "m",
            "unexpected end of input, expected `!` 0-0 0-0",
        ),
        (
            Reader::Types(TypeReader::Macro),
            "m! a",
            "expected delimiter 3-4 3-4",
        ),
        (
            Reader::Types(TypeReader::Macro),
            "m::! a",
            "expected path segment after `::` 3-4 3-4",
        ),
        (Reader::Types(TypeReader::Never), "!", "!"),
        (
            Reader::Types(TypeReader::Never),
            "A",
            "expected `!` 0-1 0-1",
        ),
        (Reader::Types(TypeReader::Infer), "_", "_"),
        (
            Reader::Types(TypeReader::Infer),
            "A",
            "expected `_` 0-1 0-1",
        ),
    ] {
        says(&rt, alloc, read(alloc, reader, text), wanted);
    }
}

#[test]
fn paths_are_read(rt: HostRuntime) {
    let alloc = rt.alloc();
    for (reader, text, wanted) in [
        (Reader::Paths(PathReader::Whole), "a", "a"),
        (Reader::Paths(PathReader::Whole), "::a::b", ":: a :: b"),
        (
            Reader::Paths(PathReader::Whole),
            "a::<B>::c<D>",
            "a :: < B > :: c < D >",
        ),
        (Reader::Paths(PathReader::Whole), "a<B>", "a < B >"),
        (
            Reader::Paths(PathReader::Whole),
            "a::",
            "unexpected end of input, expected identifier 0-0 0-0",
        ),
        (
            Reader::Paths(PathReader::Whole),
            "<A>::B",
            "expected identifier 0-1 0-1",
        ),
        (
            Reader::Paths(PathReader::Whole),
            "Fn(A)",
            "unexpected token 2-3 2-3",
        ),
        (Reader::Paths(PathReader::Segment), "a", "a"),
        (Reader::Paths(PathReader::Segment), "a<B>", "a < B >"),
        (Reader::Paths(PathReader::Segment), "a::<B>", "a :: < B >"),
        (Reader::Paths(PathReader::Segment), "Self", "Self"),
        (
            Reader::Paths(PathReader::Segment),
            "super<A>",
            "unexpected token 5-6 5-6",
        ),
        (
            Reader::Paths(PathReader::Segment),
            "1",
            "expected identifier 0-1 0-1",
        ),
    ] {
        says(&rt, alloc, read(alloc, reader, text), wanted);
    }
}

#[test]
fn generic_arguments_are_read(rt: HostRuntime) {
    let alloc = rt.alloc();
    for (text, wanted) in [
        ("'a", "'a"),
        ("'a + B", "'a + B"),
        ("A", "A"),
        ("3", "3"),
        ("-1", "- 1"),
        ("{ 4 }", "{ 4 }"),
        ("Item = A", "Item = A"),
        ("Item<'a> = A", "Item < 'a > = A"),
        ("N = 1", "N = 1"),
        ("N = { 2 }", "N = { 2 }"),
        ("Item: A + 'b", "Item : A + 'b"),
        (
            "Item:",
            "unexpected end of input, expected identifier 0-0 0-0",
        ),
        ("a::Item = A", "unexpected token 8-9 8-9"),
        (
            "Item = 'a",
            "at least one trait is required for an object type 7-8 8-9",
        ),
        (
            "=",
            "expected one of: `for`, parentheses, `unsafe`, `fn`, `extern`, identifier, `::`, `<`, `dyn`, square brackets, `*`, `&`, `!`, `impl`, `_`, lifetime 0-1 0-1",
        ),
        ("Fn(A) = B", "unexpected token 2-3 2-3"),
    ] {
        says(
            &rt,
            alloc,
            read(alloc, Reader::Paths(PathReader::Argument), text),
            wanted,
        );
    }
}

#[test]
fn lists_of_arguments_are_read(rt: HostRuntime) {
    let alloc = rt.alloc();
    for (reader, text, wanted) in [
        (Reader::Paths(PathReader::AngleBracketed), "<>", "< >"),
        (Reader::Paths(PathReader::AngleBracketed), "<A>", "< A >"),
        (
            Reader::Paths(PathReader::AngleBracketed),
            "::<A, B,>",
            ":: < A , B , >",
        ),
        (
            Reader::Paths(PathReader::AngleBracketed),
            "<A B>",
            "expected `,` 3-4 3-4",
        ),
        (
            Reader::Paths(PathReader::AngleBracketed),
            "<A",
            "unexpected end of input, expected `,` 0-0 0-0",
        ),
        (
            Reader::Paths(PathReader::AngleBracketed),
            "<Item:>",
            "< Item : >",
        ),
        (
            Reader::Paths(PathReader::AngleBracketed),
            "<Item: A, B>",
            "< Item : A , B >",
        ),
        (
            Reader::Paths(PathReader::AngleBracketed),
            "A",
            "expected `<` 0-1 0-1",
        ),
        (
            Reader::Paths(PathReader::ParseTurbofish),
            "::<A>",
            ":: < A >",
        ),
        (
            Reader::Paths(PathReader::ParseTurbofish),
            "<A>",
            "expected `::` 0-1 0-1",
        ),
        (Reader::Paths(PathReader::Parenthesized), "()", "()"),
        (
            Reader::Paths(PathReader::Parenthesized),
            "(A, B) -> C",
            "(A , B) -> C",
        ),
        (
            Reader::Paths(PathReader::Parenthesized),
            "(A) -> B + C",
            "unexpected token 9-10 9-10",
        ),
        (
            Reader::Paths(PathReader::Parenthesized),
            "(x: A)",
            "expected `,` 2-3 2-3",
        ),
        (
            Reader::Paths(PathReader::Parenthesized),
            "A",
            "expected parentheses 0-1 0-1",
        ),
    ] {
        says(&rt, alloc, read(alloc, reader, text), wanted);
    }
}

#[test]
fn bounds_are_read(rt: HostRuntime) {
    let alloc = rt.alloc();
    for (reader, text, wanted) in [
        (Reader::Generics(GenericsReader::Bound), "'a", "'a"),
        (Reader::Generics(GenericsReader::Bound), "A", "A"),
        (Reader::Generics(GenericsReader::Bound), "?A", "? A"),
        (Reader::Generics(GenericsReader::Bound), "(A)", "(A)"),
        (Reader::Generics(GenericsReader::Bound), "(?A)", "(? A)"),
        (
            Reader::Generics(GenericsReader::Bound),
            "for<'a, 'b> ::A",
            "for < 'a , 'b > :: A",
        ),
        (
            Reader::Generics(GenericsReader::Bound),
            "const A",
            "const A",
        ),
        (
            Reader::Generics(GenericsReader::Bound),
            "[const] A",
            "[const] A",
        ),
        (
            Reader::Generics(GenericsReader::Bound),
            "(const A)",
            "(const A)",
        ),
        (
            Reader::Generics(GenericsReader::Bound),
            "use<'a, T, Self,>",
            "use < 'a , T , Self , >",
        ),
        (
            Reader::Generics(GenericsReader::Bound),
            "A(B) -> C",
            "A (B) -> C",
        ),
        (Reader::Generics(GenericsReader::Bound), "A<>(B)", "A (B)"),
        (
            Reader::Generics(GenericsReader::Bound),
            "A<C>(B)",
            "unexpected token 4-5 4-5",
        ),
        (
            Reader::Generics(GenericsReader::Bound),
            "for<'a> ?A",
            "`for<...>` binder not allowed with `?` trait polarity modifier 8-9 8-9",
        ),
        (
            Reader::Generics(GenericsReader::Bound),
            "?for<'a> A",
            "`for<...>` binder not allowed with `?` trait polarity modifier 0-1 0-1",
        ),
        (
            Reader::Generics(GenericsReader::Bound),
            "use<1>",
            "expected one of: lifetime, identifier, `>` 4-5 4-5",
        ),
        (
            Reader::Generics(GenericsReader::Bound),
            "use<'a b>",
            "expected `,` or `>` 7-8 7-8",
        ),
        (
            Reader::Generics(GenericsReader::Bound),
            "1",
            "expected identifier 0-1 0-1",
        ),
        (Reader::Generics(GenericsReader::TraitBound), "A", "A"),
        (Reader::Generics(GenericsReader::TraitBound), "?A", "? A"),
        (
            Reader::Generics(GenericsReader::TraitBound),
            "for<'a> A<'a>",
            "for < 'a > A < 'a >",
        ),
        (
            Reader::Generics(GenericsReader::TraitBound),
            "const A",
            "`const` is not allowed here 0-5 0-5",
        ),
        (
            Reader::Generics(GenericsReader::TraitBound),
            "[const] A",
            "`[const]` is not allowed here 0-7 0-7",
        ),
        (
            Reader::Generics(GenericsReader::TraitBound),
            "(A)",
            "expected identifier 0-1 0-1",
        ),
        (
            Reader::Generics(GenericsReader::TraitBound),
            "'a",
            "expected identifier 0-1 0-1",
        ),
    ] {
        says(&rt, alloc, read(alloc, reader, text), wanted);
    }
}

#[test]
fn parameters_are_read(rt: HostRuntime) {
    let alloc = rt.alloc();
    for (reader, text, wanted) in [
        (Reader::Generics(GenericsReader::Param), "'a", "'a"),
        (
            Reader::Generics(GenericsReader::Param),
            "'a: 'b + 'c",
            "'a : 'b + 'c",
        ),
        (Reader::Generics(GenericsReader::Param), "T", "T"),
        (
            Reader::Generics(GenericsReader::Param),
            "T: A + 'a = B",
            "T : A + 'a = B",
        ),
        (
            Reader::Generics(GenericsReader::Param),
            "const N: usize",
            "const N : usize",
        ),
        (
            Reader::Generics(GenericsReader::Param),
            "const N: A = 1",
            "const N : A = 1",
        ),
        (
            Reader::Generics(GenericsReader::Param),
            "const N: A = { 2 }",
            "const N : A = { 2 }",
        ),
        (Reader::Generics(GenericsReader::Param), "#[a] T", "# [a] T"),
        (Reader::Generics(GenericsReader::Param), "T:", "T"),
        (Reader::Generics(GenericsReader::Param), "'a:", "'a"),
        (
            Reader::Generics(GenericsReader::Param),
            "T = A + B",
            "T = A + B",
        ),
        (
            Reader::Generics(GenericsReader::Param),
            "T: A B",
            "unexpected token 5-6 5-6",
        ),
        (
            Reader::Generics(GenericsReader::Param),
            "_",
            "expected one of: identifier, lifetime, `const` 0-1 0-1",
        ),
        (
            Reader::Generics(GenericsReader::Param),
            "fn",
            "expected one of: identifier, lifetime, `const` 0-2 0-2",
        ),
        (
            Reader::Generics(GenericsReader::Param),
            "'a: A",
            "expected lifetime 4-5 4-5",
        ),
        (
            Reader::Generics(GenericsReader::Param),
            "const N",
            "unexpected end of input, expected `:` 0-0 0-0",
        ),
        (Reader::Generics(GenericsReader::LifetimeParam), "'a", "'a"),
        (
            Reader::Generics(GenericsReader::LifetimeParam),
            "#[x] 'a: 'b +",
            "# [x] 'a : 'b +",
        ),
        (
            Reader::Generics(GenericsReader::LifetimeParam),
            "T",
            "expected lifetime 0-1 0-1",
        ),
    ] {
        says(&rt, alloc, read(alloc, reader, text), wanted);
    }
}

#[test]
fn type_and_const_parameters_are_read(rt: HostRuntime) {
    let alloc = rt.alloc();
    for (reader, text, wanted) in [
        (Reader::Generics(GenericsReader::TypeParam), "T", "T"),
        (
            Reader::Generics(GenericsReader::TypeParam),
            "T: ?A + const B",
            "T : ? A + const B",
        ),
        (
            Reader::Generics(GenericsReader::TypeParam),
            "T: use<'a>",
            "`use<...>` precise capturing syntax is not allowed here 3-6 9-10",
        ),
        (
            Reader::Generics(GenericsReader::TypeParam),
            "'a",
            "expected identifier 0-1 0-1",
        ),
        (
            Reader::Generics(GenericsReader::TypeParam),
            "fn",
            "expected identifier 0-2 0-2",
        ),
        (
            Reader::Generics(GenericsReader::ConstParam),
            "const N: A",
            "const N : A",
        ),
        (
            Reader::Generics(GenericsReader::ConstParam),
            "const N: A = -1",
            "const N : A = - 1",
        ),
        (
            Reader::Generics(GenericsReader::ConstParam),
            "const N: A = B",
            "const N : A = B",
        ),
        (
            Reader::Generics(GenericsReader::ConstParam),
            "T",
            "expected `const` 0-1 0-1",
        ),
    ] {
        says(&rt, alloc, read(alloc, reader, text), wanted);
    }
}

#[test]
fn binders_and_captures_are_read(rt: HostRuntime) {
    let alloc = rt.alloc();
    for (reader, text, wanted) in [
        (
            Reader::Generics(GenericsReader::BoundLifetimes),
            "for<>",
            "for < >",
        ),
        (
            Reader::Generics(GenericsReader::BoundLifetimes),
            "for<'a, 'b,>",
            "for < 'a , 'b , >",
        ),
        (
            Reader::Generics(GenericsReader::BoundLifetimes),
            "for<T, const N: A>",
            "for < T , const N : A >",
        ),
        (
            Reader::Generics(GenericsReader::BoundLifetimes),
            "for<_>",
            "expected one of: identifier, lifetime, `const` 4-5 4-5",
        ),
        (
            Reader::Generics(GenericsReader::BoundLifetimes),
            "for",
            "unexpected end of input, expected `<` 0-0 0-0",
        ),
        (
            Reader::Generics(GenericsReader::BoundLifetimes),
            "'a",
            "expected `for` 0-1 0-1",
        ),
        (
            Reader::Generics(GenericsReader::OptionalBoundLifetimes),
            "",
            "",
        ),
        (
            Reader::Generics(GenericsReader::OptionalBoundLifetimes),
            "for<'a>",
            "for < 'a >",
        ),
        (
            Reader::Generics(GenericsReader::Capture),
            "use<>",
            "use < >",
        ),
        (
            Reader::Generics(GenericsReader::Capture),
            "use<'a, T>",
            "use < 'a , T >",
        ),
        (
            Reader::Generics(GenericsReader::Capture),
            "use<Self,>",
            "use < Self , >",
        ),
        (
            Reader::Generics(GenericsReader::Capture),
            "use<1>",
            "expected one of: lifetime, identifier, `>` 4-5 4-5",
        ),
        (
            Reader::Generics(GenericsReader::Capture),
            "use<'a b>",
            "expected `,` or `>` 7-8 7-8",
        ),
        (
            Reader::Generics(GenericsReader::Capture),
            "use",
            "unexpected end of input, expected `<` 0-0 0-0",
        ),
        (Reader::Generics(GenericsReader::Captured), "'a", "'a"),
        (Reader::Generics(GenericsReader::Captured), "T", "T"),
        (Reader::Generics(GenericsReader::Captured), "Self", "Self"),
        (
            Reader::Generics(GenericsReader::Captured),
            "1",
            "expected lifetime or identifier 0-1 0-1",
        ),
        (
            Reader::Generics(GenericsReader::Captured),
            "self",
            "expected lifetime or identifier 0-4 0-4",
        ),
    ] {
        says(&rt, alloc, read(alloc, reader, text), wanted);
    }
}

/// `A` within as many of what opens and what closes.
fn nested(alloc: Global, open: &str, close: &str, depth: usize) -> Result<String, Error> {
    let mut text = String::new(alloc);
    for _ in 0..depth {
        text.push_str(open)?;
    }
    text.push_str("A")?;
    for _ in 0..depth {
        text.push_str(close)?;
    }
    Ok(text)
}

/// Whether what a nested type prints is read again, and prints the same.
fn is_kept(alloc: Global, open: &str, close: &str, depth: usize) -> Result<String, Error> {
    let text = nested(alloc, open, close, depth)?;
    let print = read(alloc, Reader::Types(TypeReader::Any), text.as_str())?;
    let again = read(alloc, Reader::Types(TypeReader::Any), print.as_str())?;
    let mut out = String::new(alloc);
    write!(out, "{}", again.as_str() == print.as_str())?;
    Ok(out)
}

#[test]
fn deep_types_are_read(rt: HostRuntime) {
    let alloc = rt.alloc();
    for (open, close, depth) in [
        ("(", ")", 200),
        ("[", "]", 200),
        ("&", "", 200),
        ("*const ", "", 200),
        ("<", ">::B", 200),
        ("fn() -> ", "", 200),
        ("A<", ">", 50),
        ("dyn Fn(", ")", 50),
        ("impl A<B = ", ">", 50),
    ] {
        says(&rt, alloc, is_kept(alloc, open, close, depth), "true");
    }
}

#[test]
fn long_lists_are_read(rt: HostRuntime) {
    let alloc = rt.alloc();
    for (open, close) in [("a::", ""), ("", "::b"), ("", " + 'a")] {
        says(&rt, alloc, is_kept(alloc, open, close, 10000), "true");
    }
}
