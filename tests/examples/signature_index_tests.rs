//! The worked example of docs/EXAMPLES.md: each path that a signature or a list of bounds names, with its place in the text.

use crate::signature_index::{Named, bounds, signature};
use crate::verbatim_tests::says;
use std::alloc::{AllocError, Global};
use std::fmt::Write;
use token_core::Error;

fn shown(alloc: Global, index: &[Named]) -> Result<String, AllocError> {
    let mut out = String::new(alloc);
    for named in index {
        write!(out, "{} {}-{}; ", named.path.as_str(), named.from, named.to)?;
    }
    Ok(out)
}

fn listed(alloc: Global, index: Result<Vec<Named>, Error>) -> Result<String, Error> {
    Ok(shown(alloc, &index?)?)
}

#[test]
fn signatures_are_indexed(rt: HostRuntime) {
    let alloc = rt.alloc();
    for (text, wanted) in [
        ("fn()", ""),
        (
            "fn(&str, usize) -> io::Result<()>",
            "str 4-7; usize 9-14; io::Result 19-29;",
        ),
        (
            "fn(map: Map<K, Box<dyn Fn(&K) -> V + Send>>) -> [u8; 2 * N]",
            "Map 8-11; K 12-13; Box 15-18; Fn 23-25; K 27-28; V 33-34; Send 37-41; u8 49-51;",
        ),
        (
            "unsafe extern \"C\" fn(*const ::a::B, <T as Iterator<Item = U>>::Item, ...) -> !",
            "::a::B 30-34; T 37-38; Iterator::Item 42-67; U 58-59;",
        ),
        (
            "fn((impl Into<(a, b)> + 'a, c!(d), _))",
            "Into 9-13; a 15-16; b 18-19; c 28-29;",
        ),
        ("fn(A B)", "expected `,` 5-6 5-6"),
    ] {
        says(&rt, alloc, listed(alloc, signature(alloc, text)), wanted);
    }
}

#[test]
fn bounds_are_indexed(rt: HostRuntime) {
    let alloc = rt.alloc();
    for (text, wanted) in [
        ("'a + Clone", "Clone 5-10;"),
        (
            "for<'a> Fn(&'a T) -> U + ?Sized + Iterator<Item: fmt::Debug, N = 3>",
            "Fn 8-10; T 15-16; U 21-22; Sized 26-31; Iterator 34-42; fmt::Debug 49-59;",
        ),
    ] {
        says(&rt, alloc, listed(alloc, bounds(alloc, text)), wanted);
    }
}
