//! What the sample subtree reads and prints, as the value of an attribute and by its other places.

use crate::attr_text_tests::says;
use std::alloc::Global;
use syn_mid::{MetaNameValue, Place, Subtree};
use syn_sample::sample::Sample;
use token_core::{ByFn, Error, ParseStream, ToTokens, TokenStream, read_all, read_all_with};
use token_text::{lex, text_of};

fn printed<T: ToTokens>(alloc: Global, tree: &T) -> Result<String, Error> {
    let mut out = TokenStream::new(alloc);
    tree.to_tokens(alloc, &mut out)?;
    Ok(text_of(alloc, &out)?)
}

fn value(alloc: Global, text: &str) -> Result<String, Error> {
    let tokens = lex(alloc, text)?;
    let meta = read_all::<MetaNameValue<Sample>>(alloc, &tokens)?;
    printed(alloc, &meta)
}

fn length(alloc: Global, input: &mut ParseStream<'_>) -> Result<Sample, Error> {
    Sample::read(alloc, Place::ArrayLen, input)
}

fn array_length(alloc: Global, text: &str) -> Result<String, Error> {
    let tokens = lex(alloc, text)?;
    let sample = read_all_with(alloc, ByFn(length), &tokens)?;
    printed(alloc, &sample)
}

fn inside(alloc: Global, input: &mut ParseStream<'_>) -> Result<Sample, Error> {
    Sample::read(alloc, Place::Block, input)
}

fn block(alloc: Global, text: &str) -> Result<String, Error> {
    let tokens = lex(alloc, text)?;
    let sample = read_all_with(alloc, ByFn(inside), &tokens)?;
    printed(alloc, &sample)
}

#[test]
fn values_are_sums(rt: HostRuntime) {
    let alloc = rt.alloc();
    for (text, wanted) in [
        ("k = a + 1", "k = a + 1"),
        ("k = a::b", "k = a :: b"),
        ("k = 1 + x", "k = 1 + x"),
        (
            "k = ::a+self::b+-1+true",
            "k = :: a + self :: b + - 1 + true",
        ),
        ("k = 1", "k = 1"),
        ("k = -1", "k = - 1"),
        ("k = (1)", "k = (1)"),
        ("k = (1 + b) + 2", "k = (1 + b) + 2"),
        ("k = a + ((b) + (1 + 2))", "k = a + ((b) + (1 + 2))"),
    ] {
        says(&rt, alloc, value(alloc, text), wanted);
    }
}

#[test]
fn other_values_are_refused(rt: HostRuntime) {
    let alloc = rt.alloc();
    for (text, wanted) in [
        ("k = a b", "unexpected token 6-7 6-7"),
        ("k = 1 b", "unexpected token 6-7 6-7"),
        (
            "k = #[b]",
            "unexpected attribute inside of attribute 4-5 4-5",
        ),
        (
            "k = a +",
            "unexpected end of input, expected identifier 0-0 0-0",
        ),
        (
            "k = a::",
            "unexpected end of input, expected identifier 0-0 0-0",
        ),
        ("k = [a]", "expected identifier 4-5 4-5"),
        ("k = (1 2)", "unexpected token 7-8 7-8"),
        ("k = ((1) 2)", "unexpected token 9-10 9-10"),
        ("k = (a) b", "unexpected token 8-9 8-9"),
        (
            "k = ()",
            "unexpected end of input, expected identifier 5-6 5-6",
        ),
        (
            "k = (a +)",
            "unexpected end of input, expected identifier 8-9 8-9",
        ),
        ("k = fn", "expected identifier 4-6 4-6"),
        (
            "k =",
            "unexpected end of input, expected identifier 0-0 0-0",
        ),
    ] {
        says(&rt, alloc, value(alloc, text), wanted);
    }
}

#[test]
fn lengths_may_be_literals(rt: HostRuntime) {
    let alloc = rt.alloc();
    for (text, wanted) in [
        ("4", "4"),
        ("a + 1", "a + 1"),
        ("(1 + a) + 2", "(1 + a) + 2"),
        ("", "unexpected end of input, expected identifier 0-0 0-0"),
    ] {
        says(&rt, alloc, array_length(alloc, text), wanted);
    }
}

#[test]
fn blocks_are_statements(rt: HostRuntime) {
    let alloc = rt.alloc();
    for (text, wanted) in [
        ("", ""),
        ("a", "a"),
        ("a;", "a ;"),
        ("1; 2", "1 ; 2"),
        ("1;-2;true;", "1 ; - 2 ; true ;"),
        (
            "a::b+1; ::c; (d + (1 + e)) + f;",
            "a :: b + 1 ; :: c ; (d + (1 + e)) + f ;",
        ),
        ("\\(a;\\) \\(\\) b", "a ; b"),
    ] {
        says(&rt, alloc, block(alloc, text), wanted);
    }
}

#[test]
fn other_blocks_are_refused(rt: HostRuntime) {
    let alloc = rt.alloc();
    for (text, wanted) in [
        (";", "expected identifier 0-1 0-1"),
        ("a;;", "expected identifier 2-3 2-3"),
        ("a b", "expected `;` 2-3 2-3"),
        ("a; 1, b", "expected `;` 4-5 4-5"),
        ("a; b + ;", "expected identifier 7-8 7-8"),
        ("(a;)", "unexpected token 2-3 2-3"),
        ("(a b); c", "unexpected token 3-4 3-4"),
        (
            "();",
            "unexpected end of input, expected identifier 1-2 1-2",
        ),
        ("let", "expected identifier 0-3 0-3"),
    ] {
        says(&rt, alloc, block(alloc, text), wanted);
    }
}

/// An expression in 50 groups.
const DEEP: &str =
    "k = ((((((((((((((((((((((((((((((((((((((((((((((((((1))))))))))))))))))))))))))))))))))))))))))))))))))";

#[test]
fn groups_are_nested(rt: HostRuntime) {
    let alloc = rt.alloc();
    says(&rt, alloc, value(alloc, DEEP), DEEP);
}
