//! What is read as a struct, what its parts are, and the heads of implementations for it.

use crate::verbatim_tests::{printed, says};
use item_small::verbatim::{ItemBody, StructItem};
use std::alloc::Global;
use std::process::Abort;
use syn_mid::verbatim::Path;
use token_core::{Error, Parse, ToTokens, TokenStream};
use token_text::{read_str, text_of};

/// The print of the struct that a text spells.
fn again(alloc: Global, text: &str) -> Result<String, Error> {
    let item = read_str::<StructItem>(alloc, text)?;
    printed(alloc, &item)
}

/// The head of an implementation of a trait for the struct that a text spells.
fn headed(alloc: Global, of: &str, text: &str) -> Result<String, Error> {
    let of = read_str::<Path>(alloc, of)?;
    let item = read_str::<StructItem>(alloc, text)?;
    let mut out = TokenStream::new(alloc);
    item.impl_head(alloc, &of, &mut out)?;
    Ok(text_of(alloc, &out)?)
}

#[test]
fn structs_are_printed_again(rt: HostRuntime) {
    let alloc = rt.alloc();
    for (text, wanted) in [
        ("struct A;", "struct A ;"),
        ("struct A {}", "struct A { }"),
        ("struct A where {}", "struct A { }"),
        ("#[a] struct U;", "# [a] struct U ;"),
        (
            "struct S<T: Clone = u8, 'a> where T: A { x: T }",
            "struct S < 'a , T : Clone = u8 , > where T : A { x : T }",
        ),
        (
            "struct A { #[b] c: [D; 2 * E], f: &G, }",
            "struct A { # [b] c : [D ; 2 * E] , f : & G , }",
        ),
    ] {
        says(&rt, alloc, again(alloc, text), wanted);
    }
}

#[test]
fn what_is_no_struct_is_refused(rt: HostRuntime) {
    let alloc = rt.alloc();
    for (text, wanted) in [
        ("", "unexpected end of input, expected `struct` 0-0 0-0"),
        ("enum A {}", "expected `struct` 0-4 0-4"),
        ("struct fn;", "expected identifier 7-9 7-9"),
        (
            "struct A",
            "unexpected end of input, expected curly braces or `;` 8-8 8-8",
        ),
        ("struct A(T);", "expected curly braces or `;` 8-9 8-9"),
        ("struct A { a: T b: U }", "expected `,` 16-17 16-17"),
        ("struct A { a: T,, }", "expected identifier 16-17 16-17"),
        ("struct A { a: }", "*"),
        ("struct A {} x", "unexpected token 12-13 12-13"),
        ("struct A { a: [T; 1 }", "*"),
    ] {
        if wanted == "*" {
            assert!(rt; again(alloc, text).is_err());
        } else {
            says(&rt, alloc, again(alloc, text), wanted);
        }
    }
}

/// How many fields a struct has, and how many attributes its last one bears.
fn counted(item: &StructItem) -> (usize, usize) {
    match &item.body {
        ItemBody::Named(_, fields) => match fields.last() {
            Some(field) => (fields.len(), field.attrs.len()),
            None => (0, 0),
        },
        ItemBody::Unit(_) => (0, 0),
    }
}

#[test]
fn a_struct_has_its_parts(rt: HostRuntime) {
    let alloc = rt.alloc();
    let text = "#[a] #[b] struct S<T, 'a> where T: A, { x: T, #[c] y: &'a T }";
    match read_str::<StructItem>(alloc, text) {
        Ok(item) => {
            assert_eq!(rt; item.attrs.len(), 2);
            assert_eq!(rt; item.ident.text(), "S");
            assert_eq!(rt; item.generics.params.len(), 2);
            assert!(rt; item.where_clause.is_some());
            let (fields, attributes) = counted(&item);
            assert_eq!(rt; fields, 2);
            assert_eq!(rt; attributes, 1);
        }
        Err(error) => panic!(rt; "refused: {}", error.text()),
    }
}

#[test]
fn heads_are_printed(rt: HostRuntime) {
    let alloc = rt.alloc();
    for (of, text, wanted) in [
        ("Marker", "struct A;", "impl Marker for A { }"),
        (
            "Marker",
            "struct S<T: Clone = u8, 'a> where T: A { x: T }",
            "impl < 'a , T : Clone , > Marker for S < 'a , T , > where T : A { }",
        ),
        (
            "a::Show<B>",
            "#[c] struct D<const N: usize = 2> where {}",
            "impl < const N : usize > a :: Show < B > for D < N > { }",
        ),
    ] {
        says(&rt, alloc, headed(alloc, of, text), wanted);
    }
}
