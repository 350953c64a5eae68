//! Types that hold no type, conventions and `const` or `mut` on the front of a list: before each rest that may follow, what is read
//! and what is left.

use crate::left::{leaves, read_and_left};
use crate::verbatim_tests::says;
use std::alloc::Global;
use syn_mid::verbatim::{TypeInfer, TypeMacro, TypeNever};
use syn_mid::{Abi, PointerMutability};
use token_core::{Error, ParseStream};

/// Whatever follows.
#[test]
fn reads_a_type_of_one_token(rt: HostRuntime) {
    let alloc = rt.alloc();
    for (text, wanted) in [
        ("!", "! |"),
        ("! !", "! | !"),
        ("!(a)", "! | (a)"),
        ("!, x", "! | , x"),
        ("! as T", "! | as T"),
    ] {
        leaves::<TypeNever>(&rt, alloc, text, wanted);
    }
    for (text, wanted) in [
        ("_", "_ |"),
        ("_ _", "_ | _"),
        ("_<T>", "_ | < T >"),
        ("_::a", "_ | :: a"),
        ("_ + A", "_ | + A"),
    ] {
        leaves::<TypeInfer>(&rt, alloc, text, wanted);
    }
    for (text, wanted) in [
        ("a!()", "a ! () |"),
        ("a![x] + B", "a ! [x] | + B"),
        ("::a!(x)::b", ":: a ! (x) | :: b"),
    ] {
        leaves::<TypeMacro>(&rt, alloc, text, wanted);
    }
    for (text, wanted) in [
        ("const", "const |"),
        ("mut mut T", "mut | mut T"),
        ("const T", "const | T"),
        ("mut::a", "mut | :: a"),
    ] {
        leaves::<PointerMutability>(&rt, alloc, text, wanted);
    }
}

/// What is not `!` alone, or no call, is refused.
#[test]
fn refuses_what_is_another_token(rt: HostRuntime) {
    let alloc = rt.alloc();
    let wanted = "expected `!` 0-1 0-1";
    says(&rt, alloc, read_and_left(alloc, "a", no_never), wanted);
}

fn no_never(alloc: Global, input: &mut ParseStream<'_>) -> Result<TypeNever, Error> {
    input.parse::<TypeNever>(alloc)
}

fn optional(alloc: Global, input: &mut ParseStream<'_>) -> Result<Option<Abi>, Error> {
    Abi::parse_optional(alloc, input)
}

/// Whatever follows but a string, and where none is there but `extern`.
#[test]
fn reads_a_convention_up_to_its_name(rt: HostRuntime) {
    let alloc = rt.alloc();
    for (text, wanted) in [
        ("extern", "extern |"),
        ("extern \"C\" fn", "extern \"C\" | fn"),
        ("extern fn()", "extern | fn ()"),
        ("extern crate a", "extern | crate a"),
        ("extern \"C\" { }", "extern \"C\" | { }"),
        ("extern 'a'", "extern | 'a'"),
    ] {
        leaves::<Abi>(&rt, alloc, text, wanted);
        says(&rt, alloc, read_and_left(alloc, text, optional), wanted);
    }
    for (text, wanted) in [("", "|"), ("fn()", "| fn ()"), ("\"C\"", "| \"C\"")] {
        says(&rt, alloc, read_and_left(alloc, text, optional), wanted);
    }
}

/// A string that follows is the name, and a second one stays.
#[test]
fn takes_a_string_for_the_name(rt: HostRuntime) {
    let alloc = rt.alloc();
    leaves::<Abi>(&rt, alloc, "extern \"C\" \"D\"", "extern \"C\" | \"D\"");
    let two = read_and_left(alloc, "extern extern", optional);
    says(&rt, alloc, two, "extern | extern");
}
