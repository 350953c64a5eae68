//! Texts and what they are read as, by the rules of Rust's tokens.

use std::alloc::{AllocError, Global};
use std::fmt::Write;
use std::test::Fail;
use token_core::{
    DelimSpan, Delimiter, ErrorKind, Group, Ident, Spacing, Span, TokenStream, TokenTree,
};
use token_text::{lex, text_of};

/// Each tree with its place; a joint mark has a `~`, and a group ends with its bracket's place.
fn list(tokens: &TokenStream, out: &mut String) -> Result<(), AllocError> {
    for tree in tokens.trees() {
        match tree {
            TokenTree::Ident(word) => {
                write!(out, "{} {}-{};", word.text(), word.span.lo, word.span.hi)?
            }
            TokenTree::Punct(mark) => {
                let joint = match mark.spacing {
                    Spacing::Joint => "~",
                    Spacing::Alone => "",
                };
                write!(out, "{}{joint} {}-{};", mark.ch, mark.span.lo, mark.span.hi)?
            }
            TokenTree::Literal(_) => out.push('?')?,
            TokenTree::Group(group) => {
                let span = group.delim_span();
                write!(out, "( {}-{};", span.opening.lo, span.opening.hi)?;
                list(group.stream(), out)?;
                write!(out, ") {}-{};", span.closing.lo, span.closing.hi)?;
            }
        }
    }
    Ok(())
}

fn listed(alloc: Global, text: &str) -> Result<String, AllocError> {
    let mut out = String::new(alloc);
    match lex(alloc, text) {
        Ok(tokens) => list(&tokens, &mut out)?,
        Err(e) => out.push_str(e.text())?,
    }
    Ok(out)
}

#[test]
fn reads(rt: HostRuntime) -> Result<(), Fail> {
    for (text, want) in [
        ("", ""),
        (" \t\r\n", ""),
        (
            "a _x r#fn r#_y b\u{e9} ",
            "a 0-1;_x 2-4;r#fn 5-9;r#_y 10-14;b\u{e9} 15-18;",
        ),
        ("a+=b; #", "a 0-1;+~ 1-2;= 2-3;b 3-4;; 4-5;# 6-7;"),
        ("r # r#", "r 0-1;# 2-3;r 4-5;# 5-6;"),
        ("::<", ":~ 0-1;:~ 1-2;< 2-3;"),
        (
            "f(x,[ ]){}",
            "f 0-1;( 1-2;x 2-3;, 3-4;( 4-5;) 6-7;) 7-8;( 8-9;) 9-10;",
        ),
        ("\u{4e16}=\u{754c}", "\u{4e16} 0-3;= 3-4;\u{754c} 4-7;"),
    ] {
        assert_eq!(rt; listed(rt.alloc(), text)?.as_str(), want, "{text}");
    }
    Ok(())
}

fn printed(alloc: Global, text: &str) -> Result<String, AllocError> {
    match lex(alloc, text) {
        Ok(tokens) => text_of(alloc, &tokens),
        Err(e) => String::from_str(alloc, e.text()),
    }
}

#[test]
fn prints(rt: HostRuntime) -> Result<(), Fail> {
    let text = printed(rt.alloc(), "a  +=b(c,[d]){e}{ }r#fn")?;
    assert_eq!(rt; text.as_str(), "a += b (c , [d]) { e } { } r#fn");
    let text = printed(rt.alloc(), "f\\( 1u8 \\)\\(\\)'a,r#\"b\"#/**/-'c'")?;
    assert_eq!(rt; text.as_str(), "f \\(1u8\\) \\(\\) 'a , r#\"b\"# - 'c'");
    Ok(())
}

#[test]
fn prints_invisible_groups(rt: HostRuntime) -> Result<(), Fail> {
    let place = DelimSpan::new(Span::none(), Span::none());
    let mut content = TokenStream::new(rt.alloc());
    content.push(TokenTree::Ident(Ident::new(rt.alloc(), "x", Span::none())?))?;
    let mut tokens = TokenStream::new(rt.alloc());
    tokens.push(TokenTree::Group(Group::new(Delimiter::None, content, place)))?;
    let text = text_of(rt.alloc(), &tokens)?;
    assert_eq!(rt; text.as_str(), "\\(x\\)");
    Ok(())
}

#[test]
fn names_its_refusal(rt: HostRuntime) -> Result<(), Fail> {
    match lex(rt.alloc(), "(") {
        Ok(_) => assert!(rt; false),
        Err(e) => assert!(rt; e.kind() == ErrorKind::UnclosedDelimiter),
    }
    Ok(())
}
