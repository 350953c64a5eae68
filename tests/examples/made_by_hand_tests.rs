//! The worked example of docs/EXAMPLES.md: types made by hand, and printed.

use crate::made_by_hand::{array, path, printed};
use crate::verbatim_tests::says;
use std::alloc::Global;
use token_core::Error;

fn matrix(alloc: Global, elem: &str, rows: &str, columns: &str) -> Result<String, Error> {
    let elem = path(alloc, elem)?;
    let row = array(alloc, elem, columns)?;
    let matrix = array(alloc, row, rows)?;
    printed(alloc, &matrix)
}

#[test]
fn types_are_made(rt: HostRuntime) {
    let alloc = rt.alloc();
    for (elem, rows, columns, wanted) in [
        ("u8", "2", "N + 1", "[[u8 ; N + 1] ; 2]"),
        (
            "::core::fmt::Error",
            "{ let n = 3; n * n }",
            "size_of::<T>()",
            "[[:: core :: fmt :: Error ; size_of ::< T > ()] ; { let n = 3 ; n * n }]",
        ),
    ] {
        says(&rt, alloc, matrix(alloc, elem, rows, columns), wanted);
    }
}
