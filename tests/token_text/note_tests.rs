//! Notes on refusals: lines and their ends, columns, tabs, wide characters, characters of control and hidden ones, and places past the end.

use std::alloc::Global;
use std::test::Fail;
use token_core::{Error, ErrorKind, Span};
use token_text::{lex, line_and_column, note, note_at, note_from, place_of, visible};

#[test]
fn notes(rt: HostRuntime) -> Result<(), Fail> {
    for (text, start, end, want) in [
        ("a b c", 2, 3, "f:1:3: no\na b c\n  ^"),
        ("a bcd e", 2, 5, "f:1:3: no\na bcd e\n  ^^^"),
        // an empty place, and one that ends before it begins
        ("a b", 1, 1, "f:1:2: no\na b\n ^"),
        ("a b", 2, 0, "f:1:3: no\na b\n  ^"),
        // lines, and a place over their end
        ("a\nbc\nd", 2, 4, "f:2:1: no\nbc\n^^"),
        ("a\nbc\nd", 3, 6, "f:2:2: no\nbc\n ^"),
        ("a\n\nd", 2, 3, "f:2:1: no\n\n^"),
        // tabs stand again
        ("\ta\tb", 3, 4, "f:1:4: no\n\ta\tb\n\t \t^"),
        // wide characters, and one that takes no column
        ("\u{5b57}x", 3, 4, "f:1:3: no\n\u{5b57}x\n  ^"),
        ("\u{5b57}x", 0, 3, "f:1:1: no\n\u{5b57}x\n^^"),
        ("e\u{301}x", 3, 4, "f:1:2: no\ne\u{301}x\n ^"),
        ("a\u{301}", 1, 3, "f:1:2: no\na\u{301}\n ^"),
        // within a character
        ("\u{5b57}x", 1, 4, "f:1:1: no\n\u{5b57}x\n^^^"),
        // the end of the text, and past it
        ("", 0, 0, "f:1:1: no\n\n^"),
        ("a", 1, 1, "f:1:2: no\na\n ^"),
        ("ab\n", 3, 3, "f:1:3: no\nab\n  ^"),
        ("ab\n\n", 4, 4, "f:1:3: no\nab\n  ^"),
        ("ab", 9, 12, "f:1:3: no\nab\n  ^"),
        ("\n", 0, 0, "f:1:1: no\n\n^"),
    ] {
        let got = note_at(rt.alloc(), "f", text, "no", start, end)?;
        assert_eq!(rt; got.as_str(), want);
    }
    Ok(())
}

#[test]
fn line_ends(rt: HostRuntime) -> Result<(), Fail> {
    for (text, start, end, want) in [
        ("Vec<\r\n", 6, 6, "f:1:5: no\nVec<\n    ^"),
        ("a\r\nbc\r\nd\r\n", 3, 4, "f:2:1: no\nbc\n^"),
        // a place over the end of its line, within it, and at it
        ("ab\r\nc", 0, 5, "f:1:1: no\nab\n^^"),
        ("ab\r\nc", 0, 3, "f:1:1: no\nab\n^^"),
        ("ab\r\nc", 2, 4, "f:1:3: no\nab\n  ^"),
        // a carriage return by itself
        ("a\rb c", 4, 5, "f:1:5: no\na\u{240d}b c\n    ^"),
        ("\r\n", 2, 2, "f:1:1: no\n\n^"),
    ] {
        let got = note_at(rt.alloc(), "f", text, "no", start, end)?;
        assert_eq!(rt; got.as_str(), want);
    }
    Ok(())
}

#[test]
fn ends_of_texts(rt: HostRuntime) -> Result<(), Fail> {
    for (text, want) in [
        ("Vec<  ", "f:1:5: no\nVec<  \n    ^"),
        ("Vec<\n\n\n", "f:1:5: no\nVec<\n    ^"),
        ("Vec< // so\n", "f:1:5: no\nVec< // so\n    ^"),
        ("a\nVec< /* so\n */ // and\n\n", "f:2:5: no\nVec< /* so\n    ^"),
        // what looks like a comment
        ("f(\"// no\"", "f:1:10: no\nf(\"// no\"\n         ^"),
        // no token at all
        ("// so\n", "f:1:1: no\n// so\n^"),
        // a comment of documentation is a token, as is what begins none
        ("a\n/// so\r\n\n", "f:2:7: no\n/// so\n      ^"),
        ("a //! so\n// and", "f:1:9: no\na //! so\n        ^"),
        ("a \\ b\n\n", "f:1:6: no\na \\ b\n     ^"),
    ] {
        let got = note_at(rt.alloc(), "f", text, "no", text.len(), text.len())?;
        assert_eq!(rt; got.as_str(), want);
    }
    Ok(())
}

#[test]
fn hidden_characters(rt: HostRuntime) -> Result<(), Fail> {
    for (text, start, end, want) in [
        ("\u{feff}Vec<T>", 0, 3, "f:1:1: no\n<U+FEFF>Vec<T>\n^^^^^^^^"),
        ("a\u{200b}b c", 1, 4, "f:1:2: no\na<U+200B>b c\n ^^^^^^^^"),
        ("a\u{202e}b c", 6, 7, "f:1:12: no\na<U+202E>b c\n           ^"),
        // characters of control
        ("a \u{1b}[2J b", 2, 3, "f:1:3: no\na \u{241b}[2J b\n  ^"),
        ("a \u{1b}[2J b", 7, 8, "f:1:8: no\na \u{241b}[2J b\n       ^"),
        ("\0\u{1f}\u{7f}x", 3, 4, "f:1:4: no\n\u{2400}\u{241f}\u{2421}x\n   ^"),
        ("\u{9b}2J x", 5, 6, "f:1:12: no\n<U+009B>2J x\n           ^"),
        ("\u{80}\u{9f}", 2, 4, "f:1:9: no\n<U+0080><U+009F>\n        ^^^^^^^^"),
    ] {
        let got = note_at(rt.alloc(), "f", text, "no", start, end)?;
        assert_eq!(rt; got.as_str(), want);
    }
    Ok(())
}

#[test]
fn first_lines(rt: HostRuntime) -> Result<(), Fail> {
    for (line, want) in [(1, "f:2:1: no\nbc\n^"), (40, "f:41:1: no\nbc\n^")] {
        let got = note_from(rt.alloc(), "f", line, "a\nbc", "no", 2, 3)?;
        assert_eq!(rt; got.as_str(), want);
    }
    Ok(())
}

/// The refusal of a text by the lexer.
fn refusal(alloc: Global, text: &str) -> Error {
    match lex(alloc, text) {
        Ok(_) => Error::new(alloc, Span::none(), "it is read"),
        Err(e) => e,
    }
}

#[test]
fn of_refusals(rt: HostRuntime) -> Result<(), Fail> {
    let text = "Vec<\n\tT ]";
    let e = refusal(rt.alloc(), text);
    assert_eq!(rt; place_of(text, &e), (8, 9));
    let got = note(rt.alloc(), "a.rs", text, &e)?;
    assert_eq!(rt; got.as_str(), "a.rs:2:4: unexpected closing delimiter\n\tT ]\n\t  ^");
    Ok(())
}

#[test]
fn nowhere_is_the_end(rt: HostRuntime) -> Result<(), Fail> {
    let text = "Vec<T\n";
    let e = Error::named(rt.alloc(), ErrorKind::Unexpected, Span::none());
    assert_eq!(rt; place_of(text, &e), (6, 6));
    let got = note(rt.alloc(), "a.rs", text, &e)?;
    assert_eq!(rt; got.as_str(), "a.rs:1:6: unexpected token\nVec<T\n     ^");
    Ok(())
}

#[test]
fn memory_has_no_place(rt: HostRuntime) -> Result<(), Fail> {
    let e = Error::out_of_memory();
    let got = note(rt.alloc(), "a.rs", "Vec<T>", &e)?;
    assert_eq!(rt; got.as_str(), "a.rs: out of memory");
    Ok(())
}

#[test]
fn lines_and_columns(rt: HostRuntime) -> Result<(), Fail> {
    for (first, text, start, want) in [
        (1, "a b c", 2, (1, 3)),
        (7, "a\n\u{5b57}\tb", 6, (8, 4)),
        (1, "a\u{200b}b", 4, (1, 10)),
        // the end of the text, and past it
        (2, "a\nb // so\n", 10, (3, 2)),
        (4294967295, "\n", 9, (4294967295, 1)),
    ] {
        assert!(rt; line_and_column(rt.alloc(), first, text, start)? == want);
        let note = note_from(rt.alloc(), "f", first, text, "no", start, start)?;
        let (line, column) = want;
        let heading = format!(in rt.alloc(); "f:{line}:{column}: no")?;
        assert!(rt; note.as_str().starts_with(heading.as_str()));
    }
    Ok(())
}

#[test]
fn shown(rt: HostRuntime) -> Result<(), Fail> {
    let got = visible(rt.alloc(), "a\u{1b}[2J\t\u{feff}\u{e9}")?;
    assert_eq!(rt; got.as_str(), "a\u{241b}[2J\t<U+FEFF>\u{e9}");
    Ok(())
}
