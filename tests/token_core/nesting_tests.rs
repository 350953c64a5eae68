//! How deep lists nest, by worked examples. Lists are written as in `core_tests`.

use crate::core_tests::{made, nth, refused, tokens};
use std::alloc::Global;
use std::process::Abort;
use token_core::{ErrorKind, Levels, Spacing, Span, check_nesting, nesting};

fn nests(rt: &impl Abort, alloc: Global, list: &str, levels: usize) {
    let found = made(rt, nesting(alloc, &tokens(rt, alloc, list)));
    if found != levels {
        panic!(rt; "{found}, and not {levels}: {list}");
    }
}

#[test]
fn groups_take_a_level(rt: HostRuntime) {
    let alloc = rt.alloc();
    for (list, levels) in [
        ("", 0),
        ("a b", 0),
        ("( )", 1),
        ("( a ) [ b ]", 1),
        ("( [ a ] )", 2),
        ("^ { a } $", 2),
        ("( ( ) ( ( ) ) )", 3),
    ] {
        nests(&rt, alloc, list, levels);
    }
}

#[test]
fn open_angles_take_three(rt: HostRuntime) {
    let alloc = rt.alloc();
    for (list, levels) in [
        ("Vec < A >", 3),
        ("Map < K , Vec < V > >", 6),
        ("A < B > :: C < D >", 3),
        ("A < [ B ] >", 4),
        ("( A < ) B < C >", 4),
        ("A < B -> C > < D >", 4),
        ("1 < < a", 0),
        ("( a ) < b", 1),
        ("a < b ; a < b", 3),
        ("if a < b { } if a < b { }", 4),
        ("a < b => c < d", 3),
    ] {
        nests(&rt, alloc, list, levels);
    }
}

#[test]
fn what_a_type_goes_on_after_takes_one(rt: HostRuntime) {
    let alloc = rt.alloc();
    for (list, levels) in [
        ("& & & A", 3),
        ("&& A", 2),
        ("& ' a & ' static A", 2),
        ("& mut * const A", 2),
        ("fn ( A ) -> B", 2),
        ("dyn impl fn for unsafe box", 7),
        ("a @ b @ c", 2),
        ("& A , & B", 1),
        ("& A | & B", 1),
        ("& A { b } & B", 2),
        ("& A [ b ] & B", 2),
        ("A < & B , & C >", 5),
        ("& ( & A ) & B", 3),
        ("a && b && c", 0),
        ("a * 2 * 3", 0),
        ("' a * b", 1),
        ("' dyn & ' let & a", 2),
    ] {
        nests(&rt, alloc, list, levels);
    }
}

#[test]
fn lists_above_the_limit_are_refused(rt: HostRuntime) {
    let alloc = rt.alloc();
    let list = tokens(&rt, alloc, "& A < ( b ) > , ( ( & ( c ) ) )");
    for (limit, at) in [(0, 0), (1, 2), (2, 2), (3, 2), (4, 3)] {
        let kind = ErrorKind::NestedTooDeep;
        refused(&rt, check_nesting(alloc, &list, limit), kind, "nested too deep", nth(at));
    }
    nests(&rt, alloc, "& A < ( b ) > , ( ( & ( c ) ) )", 5);
    if check_nesting(alloc, &list, 5).is_err() {
        panic!(&rt; "refused within its limit");
    }
}

#[test]
fn levels_are_taken_token_by_token(rt: HostRuntime) {
    let alloc = rt.alloc();
    let mut levels = Levels::new(alloc);
    levels.take_ident("dyn");
    made(&rt, levels.open_group(token_core::Delimiter::Brace));
    levels.take_mark('&', Spacing::Alone);
    if levels.here() != 3 {
        panic!(&rt; "three levels");
    }
    levels.take_literal();
    levels.take_mark('*', Spacing::Alone);
    levels.close_group();
    if levels.here() != 0 || Span::none() != Span::new(0, 0) {
        panic!(&rt; "back");
    }
}
