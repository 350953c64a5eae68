//! Reads from text, and what string literals hold, written from the rules of Rust.

use crate::verbatim_tests::printed;
use std::alloc::{AllocError, Global};
use std::fmt::Write;
use std::process::Abort;
use syn_mid::verbatim::Type;
use token_core::token::Comma;
use token_core::{ByFn, Error, Lit, LitStr, ParseStream, Span};
use token_text::{lit_str_value, read_lit_str, read_lit_str_with, read_str, read_str_with};

/// Literals as they are written, and the text that each holds.
const VALUES: [(&str, &str); 31] = [
    ("\"\"", ""),
    ("\"a b\"", "a b"),
    ("\"\u{e9}\u{4e16}\u{1f980}\"", "\u{e9}\u{4e16}\u{1f980}"),
    ("\"\\n\\r\\t\\\\\\0\\'\\\"\"", "\n\r\t\\\0'\""),
    ("\"\\x00\\x41\\x7f\\x7F\\x0a\"", "\0A\u{7f}\u{7f}\n"),
    ("\"\\u{0}\\u{41}\\u{e9}\\u{E9}\"", "\0A\u{e9}\u{e9}"),
    ("\"\\u{10FFFF}\\u{d7ff}\\u{E000}\"", "\u{10ffff}\u{d7ff}\u{e000}"),
    ("\"\\u{1_F9_80_}\\u{00_00_41}\"", "\u{1f980}A"),
    ("\"a\\\\nb\"", "a\\nb"),
    ("\"\\\\\"", "\\"),
    ("\"\\\"\"", "\""),
    ("\"a\nb\"", "a\nb"),
    ("\"a\r\nb\"", "a\nb"),
    ("\"a\r\n\r\nb\"", "a\n\nb"),
    ("\"a\\\nb\"", "ab"),
    ("\"a\\\n   b\"", "ab"),
    ("\"a\\\r\n\t\r\n  b\"", "ab"),
    ("\"a\\\n\"", "a"),
    ("\"a \\\n\\\n b\"", "a b"),
    ("\"a\\n\\\n b\"", "a\nb"),
    ("\"a\"suffix", "a"),
    ("r\"\"", ""),
    ("r\"a\\nb\\\"", "a\\nb\\"),
    ("r#\"a\"b\"#", "a\"b"),
    ("r##\"\"#\"##", "\"#"),
    ("r\"a\nb\r\nc\"", "a\nb\nc"),
    ("r#\"\\u{41}\"#suffix", "\\u{41}"),
    ("\"#\"", "#"),
    ("\"it's\"", "it's"),
    ("\"{}\"", "{}"),
    ("\"//\"", "//"),
];

/// What is refused, as what, and from where to where in the literal.
const REFUSED: [(&str, &str, usize, usize); 30] = [
    ("\"\\q\"", "unknown escape", 1, 3),
    ("\"a\\e\"", "unknown escape", 2, 4),
    ("\"\\\u{e9}\"", "unknown escape", 1, 4),
    ("\"\\ \"", "unknown escape", 1, 3),
    ("\"\\\ra\"", "unknown escape", 1, 3),
    ("\"\\N\"", "unknown escape", 1, 3),
    ("\"\\x\"", "expected two hexadecimal digits up to 7F after `\\x`", 1, 3),
    ("\"\\x4\"", "expected two hexadecimal digits up to 7F after `\\x`", 1, 3),
    ("\"\\x4g\"", "expected two hexadecimal digits up to 7F after `\\x`", 1, 3),
    ("\"\\x80\"", "expected two hexadecimal digits up to 7F after `\\x`", 1, 3),
    ("\"ab\\xff\"", "expected two hexadecimal digits up to 7F after `\\x`", 3, 5),
    ("\"\\u\"", "expected the number of a character in braces after `\\u`", 1, 3),
    ("\"\\u41\"", "expected the number of a character in braces after `\\u`", 1, 3),
    ("\"\\u{}\"", "expected the number of a character in braces after `\\u`", 1, 3),
    ("\"\\u{_41}\"", "expected the number of a character in braces after `\\u`", 1, 3),
    ("\"\\u{41\"", "expected the number of a character in braces after `\\u`", 1, 3),
    ("\"\\u{4g}\"", "expected the number of a character in braces after `\\u`", 1, 3),
    ("\"\\u{ 41}\"", "expected the number of a character in braces after `\\u`", 1, 3),
    ("\"\\u{d800}\"", "expected the number of a character in braces after `\\u`", 1, 3),
    ("\"\\u{dfff}\"", "expected the number of a character in braces after `\\u`", 1, 3),
    ("\"\\u{110000}\"", "expected the number of a character in braces after `\\u`", 1, 3),
    ("\"\\u{0000041}\"", "expected the number of a character in braces after `\\u`", 1, 3),
    ("\"a\rb\"", "carriage return without a line feed", 2, 3),
    ("r\"\r\"", "carriage return without a line feed", 2, 3),
    ("b\"a\"", "expected string literal", 0, 4),
    ("c\"a\"", "expected string literal", 0, 4),
    ("'a'", "expected string literal", 0, 3),
    ("a", "expected string literal", 0, 1),
    ("\"a", "expected string literal", 0, 2),
    ("\"a\" b", "expected string literal", 0, 5),
];

fn literal(alloc: Global, text: &str, at: usize) -> Result<LitStr, AllocError> {
    LitStr::new(alloc, text, Span::new(at, at + text.len()))
}

fn value(alloc: Global, text: &str) -> Result<String, Error> {
    lit_str_value(alloc, &literal(alloc, text, 0)?)
}

/// The text, or the refusal's and from where to where it points.
pub(crate) fn told(alloc: Global, read: Result<String, Error>) -> Result<String, AllocError> {
    let error = match read {
        Ok(text) => return Ok(text),
        Err(error) => error,
    };
    let mut out = String::new(alloc);
    write!(out, "{} {}-{}", error.text(), error.start().lo, error.end().hi)?;
    Ok(out)
}

fn tells(rt: &impl Abort, alloc: Global, read: Result<String, Error>, wanted: &str) {
    match told(alloc, read) {
        Ok(found) => assert_eq!(rt; found.as_str(), wanted),
        Err(_) => panic!(rt; "out of memory"),
    }
}

#[test]
fn values(rt: HostRuntime) {
    for (text, wanted) in VALUES {
        tells(&rt, rt.alloc(), value(rt.alloc(), text), wanted);
    }
}

#[test]
fn malformed_literals(rt: HostRuntime) {
    let alloc = rt.alloc();
    for (text, wanted, lo, hi) in REFUSED {
        match value(alloc, text) {
            Ok(_) => panic!(rt; "{text}"),
            Err(error) => {
                assert_eq!(rt; error.text(), wanted, "{text}");
                assert_eq!(rt; error.start().lo, lo, "{text}");
                assert_eq!(rt; error.start().hi, hi, "{text}");
                assert_eq!(rt; error.end().hi, hi, "{text}");
            }
        }
    }
}

fn read_type(alloc: Global, text: &str) -> Result<String, Error> {
    printed(alloc, &read_str::<Type>(alloc, text)?)
}

#[test]
fn texts_are_read(rt: HostRuntime) {
    let alloc = rt.alloc();
    for (text, wanted) in [
        ("Vec<[u8; 2 * N]>", "Vec < [u8 ; 2 * N] >"),
        ("", "unexpected end of input, expected one of: `for`, parentheses, `unsafe`, `fn`, `extern`, identifier, `::`, `<`, `dyn`, square brackets, `*`, `&`, `!`, `impl`, `_`, lifetime 0-0"),
        ("Vec<u8", "unexpected end of input, expected `,` 6-6"),
        ("Vec u8", "unexpected token 4-6"),
        ("Vec<\"u8>", "unterminated literal or comment 4-5"),
        ("Vec<u8)", "unexpected closing delimiter 6-7"),
    ] {
        tells(&rt, alloc, read_type(alloc, text), wanted);
    }
}

/// Two literals with a comma between them, joined by `/`.
fn two(alloc: Global, input: &mut ParseStream<'_>) -> Result<String, Error> {
    let first = input.parse::<Lit>(alloc)?;
    input.parse::<Comma>(alloc)?;
    let second = input.parse::<Lit>(alloc)?;
    let mut out = String::new(alloc);
    write!(out, "{}/{}", first.text(), second.text())?;
    Ok(out)
}

#[test]
fn texts_are_read_by_parsers(rt: HostRuntime) {
    let alloc = rt.alloc();
    for (text, wanted) in [
        ("1, \"a\"", "1/\"a\""),
        ("1,", "unexpected end of input, expected literal 2-2"),
        ("1, 2, 3", "unexpected token 4-5"),
        ("1 = 2", "expected `,` 2-3"),
    ] {
        tells(&rt, alloc, read_str_with(alloc, ByFn(two), text), wanted);
    }
}

/// The type that a literal holds, which stands at an offset of a text.
fn held(alloc: Global, text: &str, at: usize) -> Result<String, Error> {
    let lit = literal(alloc, text, at)?;
    printed(alloc, &read_lit_str::<Type>(alloc, &lit)?)
}

#[test]
fn literals_are_read(rt: HostRuntime) {
    let alloc = rt.alloc();
    for (text, wanted) in [
        ("\"Vec<u8>\"", "Vec < u8 >"),
        (
            "r#\"dyn Fn(&'a str) -> [u8; \"a\".len()]\"#",
            "dyn Fn (& 'a str) -> [u8 ; \"a\" . len ()]",
        ),
        ("\"\\x56ec\\u{3c}u8\\\n  >\"", "Vec < u8 >"),
        // at the closing quote
        ("\"Vec<u8\"", "unexpected end of input, expected `,` 107-108"),
        ("r#\"Vec<u8\"#", "unexpected end of input, expected `,` 109-111"),
        // where the characters stand
        ("\"Vec u8\"", "unexpected token 105-107"),
        ("r##\"Vec u8\"##", "unexpected token 108-110"),
        ("\"V\\x65c u\\x38 \"", "unexpected token 108-113"),
        ("\"Vec \\\n   u8\"", "unexpected token 110-112"),
        ("\"Vec<u8)\"", "unexpected closing delimiter 107-108"),
        ("\"Vec<\\u{a7}>\"", "unknown start of token 105-111"),
        // the literal itself
        ("\"Vec\\q\"", "unknown escape 104-106"),
        ("\"Vec\"u8", "unexpected suffix on string literal 105-107"),
        ("b\"Vec\"", "expected string literal 100-106"),
    ] {
        tells(&rt, alloc, held(alloc, text, 100), wanted);
    }
}

/// A literal that no text gave, where its own place counts.
fn made(alloc: Global, text: &str) -> Result<String, Error> {
    let lit = LitStr::new(alloc, text, Span::new(3, 5))?;
    read_lit_str_with(alloc, ByFn(two), &lit)
}

#[test]
fn literals_without_a_text(rt: HostRuntime) {
    let alloc = rt.alloc();
    for (text, wanted) in [
        ("\"1, 2\"", "1/2"),
        ("\"1 2\"", "expected `,` 3-5"),
        ("\"1,\"", "unexpected end of input, expected literal 3-5"),
        ("\"1, '\"", "unknown start of token 3-5"),
        ("\"\\q\"", "unknown escape 3-5"),
        ("\"1\"a", "unexpected suffix on string literal 3-5"),
    ] {
        tells(&rt, alloc, made(alloc, text), wanted);
    }
}
