//! Paths without arguments as paths that may have some, and back.

use crate::verbatim_tests::{printed, says};
use std::alloc::Global;
use syn_mid::verbatim::Path;
use syn_mid::{ModStyle, NoArguments};
use token_core::{Error, read_all, read_all_with};
use token_text::lex;

/// The path of mod style that a path is, printed.
fn mod_path_of(alloc: Global, path: &Path) -> Result<String, Error> {
    match path.to_mod_path(alloc)? {
        Some(path) => printed(alloc, &path),
        None => {
            let mut out = String::new(alloc);
            out.push_str("none")?;
            Ok(out)
        }
    }
}

/// A path of mod style, made a path and turned back.
fn there_and_back(alloc: Global, text: &str) -> Result<String, Error> {
    let tokens = lex(alloc, text)?;
    let path = read_all_with(alloc, ModStyle::<NoArguments>::new(), &tokens)?;
    let path = Path::from_mod_path(alloc, &path)?;
    mod_path_of(alloc, &path)
}

fn turned(alloc: Global, text: &str) -> Result<String, Error> {
    let tokens = lex(alloc, text)?;
    let path = read_all::<Path>(alloc, &tokens)?;
    mod_path_of(alloc, &path)
}

#[test]
fn mod_paths_are_paths(rt: HostRuntime) {
    let alloc = rt.alloc();
    for (text, wanted) in [
        ("a", "a"),
        ("a::b", "a :: b"),
        ("::a::super::r#if", ":: a :: super :: r#if"),
    ] {
        says(&rt, alloc, there_and_back(alloc, text), wanted);
        says(&rt, alloc, turned(alloc, text), wanted);
    }
}

#[test]
fn a_path_with_arguments_is_no_mod_path(rt: HostRuntime) {
    let alloc = rt.alloc();
    for text in ["a<T>", "a::b::<'c>::d", "::a::b<C = u8>"] {
        says(&rt, alloc, turned(alloc, text), "none");
    }
}
