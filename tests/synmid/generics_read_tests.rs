//! What generics, where clauses and their predicates that are read from text print, and the texts and places of their refusals.

use crate::answers::says;
use std::alloc::Global;
use syn_readers::by_name::GenericsReader;
use syn_run::readers::Reader;
use syn_sample::sample::Sample;
use token_core::{Error, Span};
use token_text::{lex, text_of};

/// What all of a text prints once it is read.
fn read(alloc: Global, reader: GenericsReader, text: &str) -> Result<String, Error> {
    let tokens = lex(alloc, text)?;
    let print = Reader::Generics(reader).reprint::<Sample>(alloc, Span::none(), tokens)?;
    Ok(text_of(alloc, &print)?)
}

#[test]
fn generics_are_read(rt: HostRuntime) {
    let alloc = rt.alloc();
    for (text, wanted) in [
        ("", ""),
        ("<>", ""),
        ("<'a>", "< 'a >"),
        ("<'a, 'b: 'a,>", "< 'a , 'b : 'a , >"),
        ("<T, 'a>", "< 'a , T , >"),
        ("<_>", "< _ >"),
        ("<_, 'a, _,>", "< 'a , _ , _ , >"),
        ("<T:>", "< T >"),
        ("<T: A<B> = C>", "< T : A < B > = C >"),
        ("<T: A + = C>", "< T : A + = C >"),
        ("<T: const A + [const] B>", "< T : const A + [const] B >"),
        (
            "<T: Clone = u8, 'a, const N: usize>",
            "< 'a , T : Clone = u8 , const N : usize >",
        ),
        (
            "<const N: usize = 1, const M: A = { 2 }>",
            "< const N : usize = 1 , const M : A = { 2 } >",
        ),
        (
            "<#[a] 'a, #[b] #[c] T, #[d] const N: A, #[e] _>",
            "< # [a] 'a , # [b] # [c] T , # [d] const N : A , # [e] _ >",
        ),
    ] {
        says(
            &rt,
            alloc,
            read(alloc, GenericsReader::Declared, text),
            wanted,
        );
    }
}

#[test]
fn generics_are_refused(rt: HostRuntime) {
    let alloc = rt.alloc();
    for (text, wanted) in [
        (
            "<",
            "unexpected end of input, expected one of: lifetime, identifier, `const` 0-0 0-0",
        ),
        (
            "<,>",
            "expected one of: lifetime, identifier, `const` 1-2 1-2",
        ),
        (
            "<fn>",
            "expected one of: lifetime, identifier, `const` 1-3 1-3",
        ),
        (
            "<T,,>",
            "expected one of: lifetime, identifier, `const` 3-4 3-4",
        ),
        (
            "<#[a]>",
            "expected one of: lifetime, identifier, `const` 5-6 5-6",
        ),
        ("<T", "unexpected end of input, expected `,` 0-0 0-0"),
        ("<T U>", "expected `,` 3-4 3-4"),
        ("<_: A>", "expected `,` 2-3 2-3"),
        ("<_ = A>", "expected `,` 3-4 3-4"),
        (
            "<T,",
            "unexpected end of input, expected one of: lifetime, identifier, `const` 0-0 0-0",
        ),
        ("<const fn: A>", "expected identifier 7-9 7-9"),
        ("<const _: A>", "expected identifier 7-8 7-8"),
        ("<const N>", "expected `:` 8-9 8-9"),
        ("<'a: A>", "expected lifetime 5-6 5-6"),
        (
            "<T: use<'a>>",
            "`use<...>` precise capturing syntax is not allowed here 4-7 10-11",
        ),
        ("<T> where", "unexpected token 4-9 4-9"),
        ("T", "unexpected token 0-1 0-1"),
    ] {
        says(
            &rt,
            alloc,
            read(alloc, GenericsReader::Declared, text),
            wanted,
        );
    }
}

#[test]
fn views_of_generics_are_printed(rt: HostRuntime) {
    let alloc = rt.alloc();
    for (reader, text, wanted) in [
        (GenericsReader::ImplGenerics, "", ""),
        (GenericsReader::ImplGenerics, "<>", ""),
        (
            GenericsReader::ImplGenerics,
            "<T: Clone = u8, 'a: 'b, const N: usize = 1>",
            "< 'a : 'b , T : Clone , const N : usize >",
        ),
        (GenericsReader::ImplGenerics, "<#[a] T = A>", "< # [a] T >"),
        (GenericsReader::TypeGenerics, "<>", ""),
        (
            GenericsReader::TypeGenerics,
            "<#[a] T: Clone = u8, 'a: 'b, const N: usize = 1>",
            "< 'a , T , N >",
        ),
        (GenericsReader::TypeGenerics, "<_>", "< _ >"),
        (GenericsReader::Turbofish, "", ""),
        (GenericsReader::Turbofish, "<>", ""),
        (
            GenericsReader::Turbofish,
            "<T: Clone = u8, 'a, const N: usize>",
            ":: < 'a , T , N >",
        ),
        (GenericsReader::Turbofish, "+", "unexpected token 0-1 0-1"),
        (
            GenericsReader::ImplGenerics,
            "<T",
            "unexpected end of input, expected `,` 0-0 0-0",
        ),
        (
            GenericsReader::TypeGenerics,
            "<T",
            "unexpected end of input, expected `,` 0-0 0-0",
        ),
    ] {
        says(&rt, alloc, read(alloc, reader, text), wanted);
    }
}

#[test]
fn where_clauses_are_read(rt: HostRuntime) {
    let alloc = rt.alloc();
    for (text, wanted) in [
        ("where", ""),
        ("where T: A", "where T : A"),
        ("where T: A, 'a: 'b,", "where T : A , 'a : 'b ,"),
        ("where #[a] T:, #[b] 'a:", "where # [a] T : , # [b] 'a :"),
        ("where <T as A>::X: Y", "where < T as A > :: X : Y"),
        ("where <A + B>::X: Y", "where < A + B > :: X : Y"),
        ("where <&T>::X: Y", "where < & T > :: X : Y"),
        ("where for<T> U: A", "where for < T > U : A"),
    ] {
        says(
            &rt,
            alloc,
            read(alloc, GenericsReader::WhereClause, text),
            wanted,
        );
    }
}

#[test]
fn where_clauses_are_refused(rt: HostRuntime) {
    let alloc = rt.alloc();
    for (text, wanted) in [
        ("", "unexpected end of input, expected `where` 0-0 0-0"),
        ("T: A", "expected `where` 0-1 0-1"),
        (
            "where <T>::X: Y",
            "generic parameters on `where` clauses are reserved for future use 6-7 6-7",
        ),
        (
            "where <>",
            "generic parameters on `where` clauses are reserved for future use 6-7 6-7",
        ),
        (
            "where <#[a] T>",
            "generic parameters on `where` clauses are reserved for future use 6-7 6-7",
        ),
        (
            "where <const N: A>",
            "generic parameters on `where` clauses are reserved for future use 6-7 6-7",
        ),
        (
            "where <'a>",
            "generic parameters on `where` clauses are reserved for future use 6-7 6-7",
        ),
        (
            "where <T, U>",
            "generic parameters on `where` clauses are reserved for future use 6-7 6-7",
        ),
        (
            "where <T: A>",
            "generic parameters on `where` clauses are reserved for future use 6-7 6-7",
        ),
        (
            "where <T = A>",
            "generic parameters on `where` clauses are reserved for future use 6-7 6-7",
        ),
        (
            "where <T::A>::X",
            "unexpected end of input, expected `:` 0-0 0-0",
        ),
        ("where T", "unexpected end of input, expected `:` 0-0 0-0"),
        ("where T A", "expected `:` 8-9 8-9"),
        ("where T: A U: B", "unexpected token 11-12 11-12"),
        ("where T: A,,", "unexpected token 11-12 11-12"),
        ("where ,", "unexpected token 6-7 6-7"),
        ("where {}", "unexpected token 6-7 6-7"),
        ("where T: A {}", "unexpected token 11-12 11-12"),
        ("where T: A;", "unexpected token 10-11 10-11"),
        ("where T: A = B", "unexpected token 11-12 11-12"),
        ("where T: A: B", "unexpected token 10-11 10-11"),
        ("where = A", "unexpected token 6-7 6-7"),
        ("where : A", "unexpected token 6-7 6-7"),
        ("where ;", "unexpected token 6-7 6-7"),
    ] {
        says(
            &rt,
            alloc,
            read(alloc, GenericsReader::WhereClause, text),
            wanted,
        );
    }
}

#[test]
fn optional_where_clauses_are_read(rt: HostRuntime) {
    let alloc = rt.alloc();
    for (text, wanted) in [
        ("", ""),
        ("where", ""),
        ("where 'a: 'b", "where 'a : 'b"),
        ("T: A", "unexpected token 0-1 0-1"),
        (
            "where <T>",
            "generic parameters on `where` clauses are reserved for future use 6-7 6-7",
        ),
    ] {
        says(
            &rt,
            alloc,
            read(alloc, GenericsReader::OptionalWhereClause, text),
            wanted,
        );
    }
}

#[test]
fn predicates_are_read(rt: HostRuntime) {
    let alloc = rt.alloc();
    for (text, wanted) in [
        ("T:", "T :"),
        ("T: A + 'a +", "T : A + 'a +"),
        ("T: ::A", "T : :: A"),
        ("T: ?A + const B", "T : ? A + const B"),
        ("'a:", "'a :"),
        ("'a: 'b + 'c", "'a : 'b + 'c"),
        ("'a: 'b +", "'a : 'b +"),
        ("#[a] 'a: 'b", "# [a] 'a : 'b"),
        ("#[a] T: A", "# [a] T : A"),
        ("for<'a> m!(): A", "for < 'a > m ! () : A"),
        ("for<'a> &'a T: A<'a>", "for < 'a > & 'a T : A < 'a >"),
        (
            "for<'a> for<'b> fn(&'b T): A",
            "for < 'a > for < 'b > fn (& 'b T) : A",
        ),
        ("for<> A + B: C", "for < > A + B : C"),
        ("'a + A: B", "'a + A : B"),
        ("[T; 2]: A", "[T ; 2] : A"),
    ] {
        says(
            &rt,
            alloc,
            read(alloc, GenericsReader::Predicate, text),
            wanted,
        );
    }
}

#[test]
fn predicates_are_refused(rt: HostRuntime) {
    let alloc = rt.alloc();
    for (text, wanted) in [
        ("T", "unexpected end of input, expected `:` 0-0 0-0"),
        ("T:::A", "expected identifier 3-4 3-4"),
        (
            "'a",
            "at least one trait is required for an object type 0-1 1-2",
        ),
        ("'a: A", "expected lifetime 4-5 4-5"),
        ("'a::A", "unexpected token 3-4 3-4"),
        ("'a: 'b::", "unexpected token 6-7 6-7"),
        ("'a: 'b 'c", "unexpected token 7-8 7-8"),
        (
            "for<'a> 'b: 'c",
            "at least one trait is required for an object type 8-9 9-10",
        ),
        ("T: A B", "unexpected token 5-6 5-6"),
        (
            "T: use<'a>",
            "`use<...>` precise capturing syntax is not allowed here 3-6 9-10",
        ),
        ("T: 1", "expected identifier 3-4 3-4"),
        ("T = A", "expected `:` 2-3 2-3"),
    ] {
        says(
            &rt,
            alloc,
            read(alloc, GenericsReader::Predicate, text),
            wanted,
        );
    }
}
