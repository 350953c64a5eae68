//! The worked example of docs/EXAMPLES.md: the head of the implementation that a derive macro writes.

use crate::derive_head::{head, parse_declared};
use crate::verbatim_tests::says;
use std::alloc::Global;
use token_core::{ByFn, Error, Ident};
use token_text::{read_str, read_str_with, text_of};

/// The head of the implementation of `Show` for what a text declares.
fn derived(alloc: Global, text: &str) -> Result<String, Error> {
    let of = read_str::<Ident>(alloc, "Show")?;
    let declared = read_str_with(alloc, ByFn(parse_declared), text)?;
    let head = head(alloc, &of, &declared)?;
    Ok(text_of(alloc, &head)?)
}

#[test]
fn heads_are_derived(rt: HostRuntime) {
    let alloc = rt.alloc();
    for (text, wanted) in [
        ("Unit", "impl Show for Unit"),
        (
            "Pair<T: Clone = u8, 'a>",
            "impl < 'a , T : Clone , > Show for Pair < 'a , T , >",
        ),
        (
            "Row<'a, #[x] T: 'a, const N: usize = 2> where [T; N]: Show, 'a: 'a",
            "impl < 'a , # [x] T : 'a , const N : usize > Show for Row < 'a , T , N > where [T ; N] : Show , 'a : 'a",
        ),
        (
            "Grid<const N: usize = { 2 * 8 }> where [u8; N * N + 1]: Sized",
            "impl < const N : usize > Show for Grid < N > where [u8 ; N * N + 1] : Sized",
        ),
        ("Set<T> where", "impl < T > Show for Set < T >"),
        (
            "Set<T> where <T>::X: A",
            "generic parameters on `where` clauses are reserved for future use 13-14 13-14",
        ),
        ("Set<T U>", "expected `,` 6-7 6-7"),
        (
            "Set<T> where T",
            "unexpected end of input, expected `:` 14-14 14-14",
        ),
    ] {
        says(&rt, alloc, derived(alloc, text), wanted);
    }
}
