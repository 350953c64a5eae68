//! Comments of documentation, and the attributes that they are read as.

use crate::string_tests::told;
use crate::verbatim_tests::printed;
use std::alloc::{AllocError, Global};
use std::fmt::Write;
use std::test::Fail;
use syn_mid::verbatim::Type;
use token_core::{Delimiter, Error, LitStr, Spacing, TokenStream, TokenTree};
use token_text::{lex, lex_documented, lit_str_value, read_str_documented};

/// Each tree after a space; a joint mark has a `+`.
fn list(tokens: &TokenStream, out: &mut String) -> Result<(), AllocError> {
    let mut is_first = true;
    for tree in tokens.trees() {
        if !is_first {
            out.push(' ')?;
        }
        is_first = false;
        match tree {
            TokenTree::Ident(word) => out.push_str(word.text())?,
            TokenTree::Punct(mark) => {
                out.push(mark.ch)?;
                if let Spacing::Joint = mark.spacing {
                    out.push('+')?;
                }
            }
            TokenTree::Literal(literal) => out.push_str(literal.text())?,
            TokenTree::Group(group) => {
                let (opening, closing) = match group.delimiter() {
                    Delimiter::Parenthesis => ('(', ')'),
                    Delimiter::Bracket => ('[', ']'),
                    Delimiter::Brace => ('{', '}'),
                    Delimiter::None => ('<', '>'),
                };
                out.push(opening)?;
                list(group.stream(), out)?;
                out.push(closing)?;
            }
        }
    }
    Ok(())
}

/// The same of a text, or where it is refused, and why.
fn listed(alloc: Global, text: &str) -> Result<String, AllocError> {
    let mut out = String::new(alloc);
    match lex_documented(alloc, text) {
        Ok(tokens) => list(&tokens, &mut out)?,
        Err(e) => write!(out, "{} {}", e.start().lo, e.text())?,
    }
    Ok(out)
}

/// What proc-macro2 reads of the same texts.
#[test]
fn documentation_is_attributes(rt: HostRuntime) -> Result<(), Fail> {
    for (text, want) in [
        ("/// A.", r#"# [doc = " A."]"#),
        ("///A", r#"# [doc = "A"]"#),
        ("///", r#"# [doc = ""]"#),
        ("/// ", r#"# [doc = " "]"#),
        ("/// A.\n", r#"# [doc = " A."]"#),
        ("/// A.\nstruct S;", r#"# [doc = " A."] struct S ;"#),
        ("/// A.\r\nstruct S;", r#"# [doc = " A."] struct S ;"#),
        ("/// A.\r\n/// B.\r\nstruct S;", r#"# [doc = " A."] # [doc = " B."] struct S ;"#),
        ("//! A.", r#"# ! [doc = " A."]"#),
        ("//!", r#"# ! [doc = ""]"#),
        ("//! A.\n//! B.\n", r#"# ! [doc = " A."] # ! [doc = " B."]"#),
        ("//!! A.", r#"# ! [doc = "! A."]"#),
        ("/** A. */", r#"# [doc = " A. "]"#),
        ("/** A. */ struct S;", r#"# [doc = " A. "] struct S ;"#),
        ("/*! A. */", r#"# ! [doc = " A. "]"#),
        ("/*!*/", r#"# ! [doc = ""]"#),
        ("/*!*/x", r#"# ! [doc = ""] x"#),
        ("/** */", r#"# [doc = " "]"#),
        ("/***/", ""),
        ("/** A /* B */ C */", r#"# [doc = " A /* B */ C "]"#),
        ("/*! A /* /** B */ */ C */x", r#"# ! [doc = " A /* /** B */ */ C "] x"#),
        ("/** A\n * B\n */", r#"# [doc = " A\n * B\n "]"#),
        ("/** A\r\n * B\r\n */", r#"# [doc = " A\r\n * B\r\n "]"#),
        ("/**A*/", r#"# [doc = "A"]"#),
        ("/** **/", r#"# [doc = " *"]"#),
        ("/**/", ""),
        ("/**/x", "x"),
        ("/*** A */x", "x"),
        ("/**** A **/x", "x"),
        ("//// A.\nx", "x"),
        ("///// A.\nx", "x"),
        ("//// /// A.\nx", "x"),
        ("// /// A.\nx", "x"),
        ("/* /// A. */x", "x"),
        ("/* /** A. */ */x", "x"),
        ("/// //// A.", r#"# [doc = " //// A."]"#),
        ("/// /* A.\nx", r#"# [doc = " /* A."] x"#),
        ("/// */ A.\nx", r#"# [doc = " */ A."] x"#),
        ("/** /// */x", r#"# [doc = " /// "] x"#),
        ("/** // */x", r#"# [doc = " // "] x"#),
        (r#"/// "A" is `"`."#, r#"# [doc = " \"A\" is `\"`."]"#),
        ("/// 'A' and \\ and \\n.", r#"# [doc = " 'A' and \\ and \\n."]"#),
        (r#"/// \"A\""#, r#"# [doc = " \\\"A\\\""]"#),
        ("/// A\tB", r#"# [doc = " A\tB"]"#),
        ("///\tA", r#"# [doc = "\tA"]"#),
        ("/// a\0b", r#"# [doc = " a\0b"]"#),
        ("/// é ß ℕ 漢字 🦀", r#"# [doc = " é ß ℕ 漢字 🦀"]"#),
        ("/** é */x", r#"# [doc = " é "] x"#),
        (r#"/// a = "b" # [c]"#, r#"# [doc = " a = \"b\" # [c]"]"#),
        (
            "struct S { /// A.\na: u8, /** B */ b: u16 }",
            r#"struct S {# [doc = " A."] a : u8 , # [doc = " B "] b : u16}"#,
        ),
        ("fn f(/// A.\nx: u8) {}", r#"fn f (# [doc = " A."] x : u8) {}"#),
        ("Vec< /// A.\n u8>", r#"Vec < # [doc = " A."] u8 >"#),
        ("[u8 /** n */ ; 4]", r#"[u8 # [doc = " n "] ; 4]"#),
        ("& /// A.\n 'a mut T", r#"& # [doc = " A."] '+ a mut T"#),
        ("#[a] /// B.\n#[c] //! D.\nx", r#"# [a] # [doc = " B."] # [c] # ! [doc = " D."] x"#),
        ("x /// A.", r#"x # [doc = " A."]"#),
        ("x///A", r#"x # [doc = "A"]"#),
        ("x=/// A.\ny", r#"x = # [doc = " A."] y"#),
        ("x=/** A */=y", r#"x = # [doc = " A "] = y"#),
        ("a! { /// A.\n //! B.\n }", r#"a ! {# [doc = " A."] # ! [doc = " B."]}"#),
        (r#""/// A." r"//! A" '/' x"#, r#""/// A." r"//! A" '/' x"#),
        (
            "/// A.\n/** B */ //! C.\n/*! D */",
            r#"# [doc = " A."] # [doc = " B "] # ! [doc = " C."] # ! [doc = " D "]"#,
        ),
        ("#/// A.\n[b]", r#"# # [doc = " A."] [b]"#),
        ("{ /// A.\n }", r#"{# [doc = " A."]}"#),
        ("/// A.\n\n/// B.\nx", r#"# [doc = " A."] # [doc = " B."] x"#),
        ("   \t/// A.", r#"# [doc = " A."]"#),
        ("// a\rb\nx", "x"),
    ] {
        let got = listed(rt.alloc(), text)?;
        assert_eq!(rt; got.as_str(), want);
    }
    Ok(())
}

/// proc-macro2 refuses these too, at the same place.
#[test]
fn documentation_refused(rt: HostRuntime) -> Result<(), Fail> {
    for (text, want) in [
        ("/// a\rb\nx", "0 unknown start of token"),
        ("/// a\r", "0 unknown start of token"),
        ("/// a\rb\r\nx", "0 unknown start of token"),
        ("/** a\rb */x", "0 unknown start of token"),
        ("/** a\r*/x", "0 unknown start of token"),
        ("/*! a\r\n\rb */x", "0 unknown start of token"),
        ("/** A", "0 unterminated literal or comment"),
        ("/*!", "0 unterminated literal or comment"),
        ("/**", "0 unterminated literal or comment"),
        ("/*! /* */", "0 unterminated literal or comment"),
        ("/** A *", "0 unterminated literal or comment"),
        ("x /** A", "2 unterminated literal or comment"),
    ] {
        let got = listed(rt.alloc(), text)?;
        assert_eq!(rt; got.as_str(), want);
    }
    Ok(())
}

/// The last literal of the tokens.
fn last_literal(alloc: Global, tokens: &TokenStream) -> Result<Option<LitStr>, AllocError> {
    let mut found = None;
    for tree in tokens.trees() {
        match tree {
            TokenTree::Literal(lit) => found = Some(LitStr::new(alloc, lit.text(), lit.span)?),
            TokenTree::Group(group) => {
                if let Some(lit) = last_literal(alloc, group.stream())? {
                    found = Some(lit);
                }
            }
            _ => {}
        }
    }
    Ok(found)
}

fn said(alloc: Global, text: &str) -> Result<String, Error> {
    let tokens = lex_documented(alloc, text)?;
    match last_literal(alloc, &tokens)? {
        Some(lit) => lit_str_value(alloc, &lit),
        None => Ok(String::new(alloc)),
    }
}

/// Comments, and what they say: `lit_str_value` answers it.
#[test]
fn documentation_says(rt: HostRuntime) -> Result<(), Fail> {
    for (text, want) in [
        ("/// A.", " A."),
        ("///", ""),
        ("///\r\nx", ""),
        ("/// A \r\nx", " A "),
        ("/**A*/", "A"),
        ("/*!*/", ""),
        ("/** a\nb\r\nc */", " a\nb\r\nc "),
        ("/// \\ \" ' \t \0 \u{7f} {} \\n \\\"", " \\ \" ' \t \0 \u{7f} {} \\n \\\""),
        ("/// \u{e9}\u{4e16}\u{1f980}\u{200b}", " \u{e9}\u{4e16}\u{1f980}\u{200b}"),
        ("//! \\", " \\"),
        ("/*! * / **/", " * / *"),
    ] {
        let got = told(rt.alloc(), said(rt.alloc(), text))?;
        assert_eq!(rt; got.as_str(), want);
    }
    Ok(())
}

/// Each place of a tree, and of either bracket.
fn places(tokens: &TokenStream, out: &mut String) -> Result<(), AllocError> {
    for tree in tokens.trees() {
        let span = match tree {
            TokenTree::Ident(word) => word.span,
            TokenTree::Punct(mark) => mark.span,
            TokenTree::Literal(literal) => literal.span,
            TokenTree::Group(group) => {
                let span = group.delim_span();
                write!(out, "[{}-{} ", span.opening.lo, span.opening.hi)?;
                places(group.stream(), out)?;
                write!(out, "{}-{}] ", span.closing.lo, span.closing.hi)?;
                continue;
            }
        };
        write!(out, "{}-{} ", span.lo, span.hi)?;
    }
    Ok(())
}

/// All of an attribute stands where the comment stands, of which the line feed is no part.
#[test]
fn documentation_places(rt: HostRuntime) -> Result<(), Fail> {
    for (text, want) in [
        ("/// A.\nx", "0-6 [0-6 0-6 0-6 0-6 0-6] 7-8 "),
        ("/// A.\r\nx", "0-7 [0-7 0-7 0-7 0-7 0-7] 8-9 "),
        ("x /*! \u{e9} */y", "0-1 2-11 2-11 [2-11 2-11 2-11 2-11 2-11] 11-12 "),
    ] {
        let mut got = String::new(rt.alloc());
        match lex_documented(rt.alloc(), text) {
            Ok(tokens) => places(&tokens, &mut got)?,
            Err(e) => got.push_str(e.text())?,
        }
        assert_eq!(rt; got.as_str(), want);
    }
    Ok(())
}

fn read(alloc: Global, text: &str) -> Result<String, Error> {
    printed(alloc, &read_str_documented::<Type>(alloc, text)?)
}

/// Types, with a comment of documentation before a parameter, and the texts of their prints.
#[test]
fn documented_texts_are_read(rt: HostRuntime) -> Result<(), Fail> {
    for (text, want) in [
        ("fn(/// A.\n u8)", "fn (# [doc = \" A.\"] u8)"),
        ("fn(/** \"A\" */ a: u8)", "fn (# [doc = \" \\\"A\\\" \"] a : u8)"),
        ("fn(//// A.\n u8)", "fn (u8)"),
        ("u8 // A.\n", "u8"),
    ] {
        let got = told(rt.alloc(), read(rt.alloc(), text))?;
        assert_eq!(rt; got.as_str(), want);
    }
    let refused = told(rt.alloc(), read(rt.alloc(), "/// A.\nu8"))?;
    assert!(rt; refused.as_str().ends_with(" 0-6"));
    Ok(())
}

/// `lex` and `read_str` go on refusing them.
#[test]
fn documentation_stays_refused(rt: HostRuntime) -> Result<(), Fail> {
    for text in ["/// A.", "x //! A.", "/** A. */", "/*! A. */", "/// a\rb"] {
        match lex(rt.alloc(), text) {
            Ok(_) => panic!(rt; "read"),
            Err(e) => assert_eq!(rt; e.text(), "documentation comments are not supported"),
        }
    }
    Ok(())
}
