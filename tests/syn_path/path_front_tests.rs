//! Paths and macro calls on the front of a list: before each rest that may follow, what is read and what is left.

use crate::left::{leaves, read_and_left};
use crate::verbatim_tests::says;
use std::alloc::Global;
use syn_mid::{Macro, ModPath};
use token_core::{Error, ParseStream};

fn mod_style(alloc: Global, input: &mut ParseStream<'_>) -> Result<ModPath, Error> {
    ModPath::parse_mod_style(alloc, input)
}

/// Before the end, and whatever does not begin with `::`.
#[test]
fn reads_a_path_of_mod_style_up_to_its_last_word(rt: HostRuntime) {
    let alloc = rt.alloc();
    for (text, wanted) in [
        ("a", "a |"),
        ("::a::self", ":: a :: self |"),
        ("a b", "a | b"),
        ("a::b as c", "a :: b | as c"),
        ("a<T>", "a | < T >"),
        ("a::b<T>::c", "a :: b | < T >:: c"),
        ("a (b) -> c", "a | (b) -> c"),
        ("crate::a!{x}", "crate :: a | ! { x }"),
        ("Self = 1", "Self | = 1"),
        ("a: T", "a | : T"),
        ("a : :b", "a | : : b"),
        ("a, b", "a | , b"),
        ("super::a[0]", "super :: a | [0]"),
    ] {
        says(&rt, alloc, read_and_left(alloc, text, mod_style), wanted);
    }
}

/// What follows `::` has to be a segment.
#[test]
fn refuses_a_path_of_mod_style_before_a_further_mark(rt: HostRuntime) {
    let alloc = rt.alloc();
    for (text, wanted) in [
        (
            "a::",
            "unexpected end of input, expected path segment after `::` 0-0 0-0",
        ),
        ("a::<T>", "expected path segment after `::` 3-4 3-4"),
        ("a::(b)", "expected path segment after `::` 3-4 3-4"),
        ("a:::b", "expected path segment after `::` 3-4 3-4"),
    ] {
        says(&rt, alloc, read_and_left(alloc, text, mod_style), wanted);
    }
}

/// Whatever follows.
#[test]
fn reads_a_macro_call_up_to_its_brackets(rt: HostRuntime) {
    let alloc = rt.alloc();
    for (text, wanted) in [
        ("a!{}", "a ! { } |"),
        ("::a::b![x]", ":: a :: b ! [x] |"),
        ("a!(x) y", "a ! (x) | y"),
        ("a!{x}::b", "a ! { x } | :: b"),
        ("a!(x)!(y)", "a ! (x) | ! (y)"),
        ("a![][0]", "a ! [] | [0]"),
        ("a!{x} + b", "a ! { x } | + b"),
        ("self!(x);", "self ! (x) | ;"),
        ("a!(x), b", "a ! (x) | , b"),
    ] {
        leaves::<Macro>(&rt, alloc, text, wanted);
    }
}
