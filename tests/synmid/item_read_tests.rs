//! What structs that are read from text print, and the heads of implementations for them.

use crate::answers::says;
use std::alloc::Global;
use syn_run::items::ItemReader;
use syn_run::readers::Reader;
use syn_sample::sample::Sample;
use token_core::{Error, Span};
use token_text::{lex, text_of};

/// What all of a text prints once it is read.
fn read(alloc: Global, reader: ItemReader, text: &str) -> Result<String, Error> {
    let tokens = lex(alloc, text)?;
    let print = Reader::Items(reader).reprint::<Sample>(alloc, Span::none(), tokens)?;
    Ok(text_of(alloc, &print)?)
}

#[test]
fn structs_are_read(rt: HostRuntime) {
    let alloc = rt.alloc();
    for (text, wanted) in [
        ("struct A;", "struct A ;"),
        ("#[a] struct A<B, 'c> {}", "# [a] struct A < 'c , B , > { }"),
        ("struct A where { a: B }", "struct A { a : B }"),
        (
            "struct A where B: C { #[d] e: F, g: [H; 1 + i], }",
            "struct A where B : C { # [d] e : F , g : [H ; 1 + i] , }",
        ),
    ] {
        says(&rt, alloc, read(alloc, ItemReader::Struct, text), wanted);
    }
}

#[test]
fn heads_are_read(rt: HostRuntime) {
    let alloc = rt.alloc();
    for (text, wanted) in [
        ("struct A;", "impl Marker for A { }"),
        (
            "struct A<B: C = D, 'e> where F: G { h: I }",
            "impl < 'e , B : C , > Marker for A < 'e , B , > where F : G { }",
        ),
    ] {
        says(&rt, alloc, read(alloc, ItemReader::Head, text), wanted);
    }
}
