//! Texts and their tokens, and texts that are refused, written from the rules.

use std::alloc::{AllocError, Global};
use std::process::Abort;
use std::test::Fail;
use token_core::{Delimiter, LitKind, Spacing, Span, TokenStream, TokenTree};
use token_text::lex;

/// Trees are joined by spaces, and a joint mark has a `~`.
const WORDS: [(&str, &str); 25] = [
    ("a", "a"),
    ("_", "_"),
    ("_a1", "_a1"),
    ("a_b c", "a_b c"),
    ("r", "r"),
    ("b", "b"),
    ("c", "c"),
    ("br", "br"),
    ("cr", "cr"),
    ("rb", "rb"),
    ("r#fn", "r#fn"),
    ("r#a1 r#_x", "r#a1 r#_x"),
    ("r#r", "r#r"),
    ("r #a", "r # a"),
    ("r##a", "r #~ # a"),
    ("r#1", "r # Int:1"),
    ("br#a", "br # a"),
    ("b#", "b #"),
    ("c##", "c #~ #"),
    ("\u{e9}t\u{e9}", "\u{e9}t\u{e9}"),
    ("\u{4e16}\u{754c}", "\u{4e16}\u{754c}"),
    ("a\tb\rc\nd", "a b c d"),
    ("Self self crate super", "Self self crate super"),
    ("r#true", "r#true"),
    ("rr#\"\"", "rr # Str:\"\""),
];

/// Comments, which are no trees.
const COMMENTS: [(&str, &str); 27] = [
    ("//", ""),
    ("// a", ""),
    ("// a\nb", "b"),
    ("a//b\nc", "a c"),
    ("////", ""),
    ("//// a", ""),
    ("a////b", "a"),
    ("/**/", ""),
    ("/* a */b", "b"),
    ("/***/", ""),
    ("/*** a */", ""),
    ("/*/**/*/", ""),
    ("/*/* a */ b */c", "c"),
    ("/* /* */ /* */ */", ""),
    ("a/* */b", "a b"),
    ("/*//*/ */ */", ""),
    ("// /*\na", "a"),
    ("/* // */a", "a"),
    ("/ /", "/ /"),
    ("/*\n*/a", "a"),
    ("//\u{e9}\na", "a"),
    ("/*\"*/", ""),
    ("/****/", ""),
    ("/* ' */'a", "'~ a"),
    ("1//\n.", "Int:1 ."),
    ("/* **/", ""),
    ("/*a/*/b*/*/c", "c"),
];

/// A literal stands after its kind.
const STRINGS: [(&str, &str); 39] = [
    ("\"\"", "Str:\"\""),
    ("\"a\"", "Str:\"a\""),
    ("\"\\\"\"", "Str:\"\\\"\""),
    ("\"\\\\\"", "Str:\"\\\\\""),
    ("\"\\\\\\\"\"", "Str:\"\\\\\\\"\""),
    ("\"'\"", "Str:\"'\""),
    ("\"//\"", "Str:\"//\""),
    ("\"/*\"", "Str:\"/*\""),
    ("\"a\nb\"", "Str:\"a\nb\""),
    ("\"a\"b", "Str:\"a\"b"),
    ("\"a\"_b", "Str:\"a\" _b"),
    ("\"a\"1", "Str:\"a\" Int:1"),
    ("\"a\"\"b\"", "Str:\"a\" Str:\"b\""),
    ("b\"\"", "ByteStr:b\"\""),
    ("b\"\\\"\"x", "ByteStr:b\"\\\"\"x"),
    ("c\"a\"", "CStr:c\"a\""),
    ("c\"\\\"\" a", "CStr:c\"\\\"\" a"),
    ("r\"\"", "Str:r\"\""),
    ("r\"\\\"", "Str:r\"\\\""),
    ("r\"\\\"a", "Str:r\"\\\"a"),
    ("r#\"\"#", "Str:r#\"\"#"),
    ("r#\"\"\"#", "Str:r#\"\"\"#"),
    ("r#\"a\"b\"#c", "Str:r#\"a\"b\"#c"),
    ("r##\"a\"#b\"##", "Str:r##\"a\"#b\"##"),
    ("r#\"\"##", "Str:r#\"\"# #"),
    ("r##\"\"###", "Str:r##\"\"## #"),
    ("br\"a\"", "ByteStr:br\"a\""),
    ("br#\"\\\"#", "ByteStr:br#\"\\\"#"),
    ("cr\"a\"", "CStr:cr\"a\""),
    ("cr##\"#\"##", "CStr:cr##\"#\"##"),
    ("a\"b\"", "a Str:\"b\""),
    ("rc\"a\"", "rc Str:\"a\""),
    ("bb\"\"", "bb Str:\"\""),
    ("r#\"#\"#", "Str:r#\"#\"#"),
    ("b \"a\"", "b Str:\"a\""),
    ("\"\u{e9}\\\u{e9}\"", "Str:\"\u{e9}\\\u{e9}\""),
    ("r\"a\"r#b", "Str:r\"a\"r # b"),
    ("(\"a\")", "( Str:\"a\" )"),
    ("\"a\"r\"b\"", "Str:\"a\"r Str:\"b\""),
];

/// A lifetime is two trees.
const QUOTES: [(&str, &str); 40] = [
    ("'a'", "Char:'a'"),
    ("'a", "'~ a"),
    ("'ab", "'~ ab"),
    ("'_", "'~ _"),
    ("'_'", "Char:'_'"),
    ("'static", "'~ static"),
    ("'r#fn", "'~ r#fn"),
    ("'\\''", "Char:'\\''"),
    ("'\\n'", "Char:'\\n'"),
    ("'\\\\'", "Char:'\\\\'"),
    ("'\\u{41}'", "Char:'\\u{41}'"),
    ("'\\x41'", "Char:'\\x41'"),
    ("'\"'", "Char:'\"'"),
    ("' '", "Char:' '"),
    ("'\n'", "Char:'\n'"),
    ("'('", "Char:'('"),
    ("'/'", "Char:'/'"),
    ("'1'", "Char:'1'"),
    ("'\u{e9}'", "Char:'\u{e9}'"),
    ("'\u{4e16}", "'~ \u{4e16}"),
    ("'a'b", "Char:'a'b"),
    ("'a'_", "Char:'a' _"),
    ("'a 'b", "'~ a '~ b"),
    ("'a,'b", "'~ a , '~ b"),
    ("b'a'", "Byte:b'a'"),
    ("b'\\''", "Byte:b'\\''"),
    ("b'\\xff'u8", "Byte:b'\\xff'u8"),
    ("b' '", "Byte:b' '"),
    ("c'a", "c '~ a"),
    ("c'a'", "c Char:'a'"),
    ("r'a", "r '~ a"),
    ("&'a", "& '~ a"),
    ("+'a", "+ '~ a"),
    ("<'a>", "< '~ a >"),
    ("'fn", "'~ fn"),
    ("'self", "'~ self"),
    ("'b\"\"", "'~ b Str:\"\""),
    ("'\\ab'", "Char:'\\ab'"),
    ("'r#a 'b", "'~ r#a '~ b"),
    ("'a'b'c'", "Char:'a'b Char:'c'"),
];

/// With their suffixes.
const NUMBERS: [(&str, &str); 74] = [
    ("0", "Int:0"),
    ("1", "Int:1"),
    ("10_000", "Int:10_000"),
    ("1_", "Int:1_"),
    ("1__2", "Int:1__2"),
    ("_1", "_1"),
    ("007", "Int:007"),
    ("0x1F", "Int:0x1F"),
    ("0xfg", "Int:0xfg"),
    ("0x_1", "Int:0x_1"),
    ("0x__a_", "Int:0x__a_"),
    ("0b10", "Int:0b10"),
    ("0b_1", "Int:0b_1"),
    ("0o17", "Int:0o17"),
    ("0o_7_", "Int:0o_7_"),
    ("0x", "Int:0x"),
    ("0b", "Int:0b"),
    ("0o", "Int:0o"),
    ("0xg", "Int:0xg"),
    ("0b_", "Int:0b_"),
    ("0ba", "Int:0ba"),
    ("0X1", "Int:0X1"),
    ("0B1", "Int:0B1"),
    ("0xe+1", "Int:0xe + Int:1"),
    ("0x1.0", "Int:0x1 . Int:0"),
    ("0b1.", "Int:0b1 ."),
    ("0b1e5", "Int:0b1e5"),
    ("0b1e", "Int:0b1e"),
    ("0x1u8", "Int:0x1u8"),
    ("0o1_u8", "Int:0o1_u8"),
    ("1u8", "Int:1u8"),
    ("1_u8", "Int:1_u8"),
    ("1f32", "Int:1f32"),
    ("1r#a", "Int:1r # a"),
    ("1\u{e9}", "Int:1\u{e9}"),
    ("1.", "Float:1."),
    ("1.0", "Float:1.0"),
    ("1.0_0", "Float:1.0_0"),
    ("1. 0", "Float:1. Int:0"),
    ("1.a", "Int:1 . a"),
    ("1._", "Int:1 . _"),
    ("1..", "Int:1 .~ ."),
    ("1..2", "Int:1 .~ . Int:2"),
    ("1...2", "Int:1 .~ .~ . Int:2"),
    ("1.0.1", "Float:1.0 . Int:1"),
    ("1.0f32", "Float:1.0f32"),
    ("(1.)", "( Float:1. )"),
    ("1.+2", "Float:1. + Int:2"),
    ("1.e5", "Int:1 . e5"),
    ("1.r#a", "Int:1 . r#a"),
    ("1e5", "Float:1e5"),
    ("1E5", "Float:1E5"),
    ("1e+5", "Float:1e+5"),
    ("1e-5", "Float:1e-5"),
    ("1e_5", "Float:1e_5"),
    ("1e+_5_", "Float:1e+_5_"),
    ("1.0e5", "Float:1.0e5"),
    ("1.0E-5f64", "Float:1.0E-5f64"),
    ("1_e5", "Float:1_e5"),
    ("1e5.0", "Float:1e5 . Int:0"),
    ("1e5e", "Float:1e5e"),
    ("0e1", "Float:0e1"),
    ("0.0", "Float:0.0"),
    ("-1", "- Int:1"),
    ("a.0", "a . Int:0"),
    ("a.0.1", "a . Float:0.1"),
    ("1 .5", "Int:1 . Int:5"),
    ("1.\u{e9}", "Int:1 . \u{e9}"),
    ("1/2", "Int:1 / Int:2"),
    ("1//2", "Int:1"),
    ("1'a'", "Int:1 Char:'a'"),
    ("1\"a\"", "Int:1 Str:\"a\""),
    ("1#", "Int:1 #"),
    ("9_9.9_9e9_9f9_9", "Float:9_9.9_9e9_9f9_9"),
];

/// Joint before another mark that begins no comment.
const MARKS: [(&str, &str); 29] = [
    (
        "!#$%&*+,-./:;<=>?@^~|",
        "!~ #~ $~ %~ &~ *~ +~ ,~ -~ .~ /~ :~ ;~ <~ =~ >~ ?~ @~ ^~ ~~ |",
    ),
    ("+ =", "+ ="),
    ("+=", "+~ ="),
    ("a::b", "a :~ : b"),
    (">>=", ">~ >~ ="),
    ("..=", ".~ .~ ="),
    ("->", "-~ >"),
    ("=>", "=~ >"),
    ("&&", "&~ &"),
    ("||", "|~ |"),
    ("=//", "="),
    ("=/* */=", "= ="),
    ("=/", "=~ /"),
    ("=/ /", "=~ / /"),
    ("+/*a*/", "+"),
    ("+//a\n+", "+ +"),
    ("*/", "*~ /"),
    ("/=", "/~ ="),
    ("/+", "/~ +"),
    ("<'a", "< '~ a"),
    ("+a", "+ a"),
    ("+()", "+ ( )"),
    ("#[a]", "# [ a ]"),
    ("+_", "+ _"),
    ("+1", "+ Int:1"),
    ("+\"a\"", "+ Str:\"a\""),
    ("+\n+", "+ +"),
    ("$a", "$ a"),
    ("a!()", "a ! ( )"),
];

/// An invisible group has its own brackets.
const GROUPS: [(&str, &str); 17] = [
    ("()", "( )"),
    ("[]", "[ ]"),
    ("{}", "{ }"),
    ("\\(\\)", "\\( \\)"),
    ("\\(a\\)", "\\( a \\)"),
    ("(a,[b{c}])", "( a , [ b { c } ] )"),
    ("\\(\\(\\)\\)", "\\( \\( \\) \\)"),
    ("a\\(+\\)b", "a \\( + \\) b"),
    ("(\\(a\\))", "( \\( a \\) )"),
    ("\\((a)\\)", "\\( ( a ) \\)"),
    ("()[]{}", "( ) [ ] { }"),
    ("( /* ) */ )", "( )"),
    ("(')')", "( Char:')' )"),
    ("(\")\")", "( Str:\")\" )"),
    ("(//)\n)", "( )"),
    ("1\\(2\\)", "Int:1 \\( Int:2 \\)"),
    ("{ }", "{ }"),
];

/// Refused: unterminated literal or comment, from where to where.
const UNTERMINATED: [(&str, usize, usize); 25] = [
    ("\"", 0, 1),
    ("\"\\", 0, 1),
    ("\"\\\"", 0, 1),
    ("b\"", 0, 1),
    ("c\"a", 0, 1),
    ("r\"", 0, 1),
    ("r#\"", 0, 1),
    ("r#\"\"", 0, 1),
    ("r##\"\"#", 0, 1),
    ("br\"", 0, 1),
    ("br#\"\"", 0, 1),
    ("cr\"", 0, 1),
    ("'\\", 0, 1),
    ("'\\'", 0, 1),
    ("'\\n", 0, 1),
    ("b'\\", 0, 1),
    ("b'\\'", 0, 1),
    ("/*", 0, 1),
    ("/*/", 0, 1),
    ("/*/*", 0, 1),
    ("/*/**/", 0, 1),
    ("/* *", 0, 1),
    ("a /*", 2, 3),
    ("a\"", 1, 2),
    ("/*/**", 0, 1),
];

/// Refused: unknown start of token, from where to where.
const UNKNOWN: [(&str, usize, usize); 28] = [
    ("'", 0, 1),
    ("''", 0, 1),
    ("'''", 0, 1),
    ("' ", 0, 1),
    ("'1", 0, 1),
    ("'+", 0, 1),
    ("'r#self", 0, 1),
    ("'r#_", 0, 1),
    ("b'", 0, 1),
    ("b''", 0, 1),
    ("b'a", 0, 1),
    ("b'ab'", 0, 1),
    ("\u{a0}", 0, 2),
    ("\\", 0, 1),
    ("\\a", 0, 1),
    ("\\ (", 0, 1),
    ("`", 0, 1),
    ("\u{b7}", 0, 2),
    ("r#self", 0, 1),
    ("r#Self", 0, 1),
    ("r#super", 0, 1),
    ("r#crate", 0, 1),
    ("r#_", 0, 1),
    ("\u{20ac}", 0, 3),
    ("a \0", 2, 3),
    ("'\u{b7}", 0, 1),
    ("1'", 1, 2),
    ("\u{200b}", 0, 3),
];

/// Refused: documentation comments are not supported, from where to where.
const DOCUMENTED: [(&str, usize, usize); 14] = [
    ("///", 0, 1),
    ("/// a", 0, 1),
    ("//!", 0, 1),
    ("//!a\n", 0, 1),
    ("/**", 0, 1),
    ("/** */", 0, 1),
    ("/*!", 0, 1),
    ("/*!*/", 0, 1),
    ("/**a", 0, 1),
    ("a///", 1, 2),
    ("=///", 1, 2),
    ("///\n/", 0, 1),
    ("/*!/", 0, 1),
    ("//!/", 0, 1),
];

/// Refused: malformed number, from where to where.
const MALFORMED: [(&str, usize, usize); 18] = [
    ("0b2", 0, 1),
    ("0o8", 0, 1),
    ("0b12", 0, 1),
    ("0o19", 0, 1),
    ("0b_2", 0, 1),
    ("0b1_9", 0, 1),
    ("1e", 0, 1),
    ("1E", 0, 1),
    ("1e+", 0, 1),
    ("1e-", 0, 1),
    ("1e_", 0, 1),
    ("1ea", 0, 1),
    ("1e+a", 0, 1),
    ("1.0e", 0, 1),
    ("1em", 0, 1),
    ("0e", 0, 1),
    ("a 1e", 2, 3),
    ("1e+-1", 0, 1),
];

/// Refused: unclosed delimiter, from where to where.
const UNCLOSED: [(&str, usize, usize); 8] = [
    ("(", 0, 1),
    ("[", 0, 1),
    ("{", 0, 1),
    ("\\(", 0, 2),
    ("a ( [ ]", 2, 3),
    ("((", 1, 2),
    ("(\\(", 1, 3),
    ("(\"a\"", 0, 1),
];

/// Refused: unexpected closing delimiter, from where to where.
const UNEXPECTED: [(&str, usize, usize); 9] = [
    (")", 0, 1),
    ("]", 0, 1),
    ("}", 0, 1),
    ("\\)", 0, 2),
    ("(]", 1, 2),
    ("([)", 2, 3),
    ("(\\)", 1, 3),
    ("\\()", 2, 3),
    ("a}", 1, 2),
];

fn kind_name(kind: LitKind) -> &'static str {
    match kind {
        LitKind::Str => "Str:",
        LitKind::ByteStr => "ByteStr:",
        LitKind::CStr => "CStr:",
        LitKind::Byte => "Byte:",
        LitKind::Char => "Char:",
        LitKind::Int => "Int:",
        LitKind::Float => "Float:",
    }
}

fn brackets(delimiter: Delimiter) -> (&'static str, &'static str) {
    match delimiter {
        Delimiter::Parenthesis => ("(", ")"),
        Delimiter::Bracket => ("[", "]"),
        Delimiter::Brace => ("{", "}"),
        Delimiter::None => ("\\(", "\\)"),
    }
}

/// What stands where the span says, after a space if something is before it.
fn show(text: &str, span: Span, out: &mut String) -> Result<(), AllocError> {
    if !out.is_empty() {
        out.push(' ')?;
    }
    out.push_str(text.get(span.lo..span.hi).unwrap_or("nothing"))
}

/// A tree's own text, if its span shows another.
fn check(text: &str, span: Span, own: &str, out: &mut String) -> Result<(), AllocError> {
    if text.get(span.lo..span.hi) == Some(own) {
        Ok(())
    } else {
        out.push_str(own)
    }
}

fn list(text: &str, tokens: &TokenStream, out: &mut String) -> Result<(), AllocError> {
    for tree in tokens.trees() {
        match tree {
            TokenTree::Ident(word) => {
                show(text, word.span, out)?;
                check(text, word.span, word.text(), out)?;
            }
            TokenTree::Punct(mark) => {
                show(text, mark.span, out)?;
                if mark.spacing == Spacing::Joint {
                    out.push('~')?;
                }
            }
            TokenTree::Literal(literal) => {
                if !out.is_empty() {
                    out.push(' ')?;
                }
                out.push_str(kind_name(literal.kind()))?;
                out.push_str(literal.text())?;
                check(text, literal.span(), literal.text(), out)?;
            }
            TokenTree::Group(group) => {
                let span = group.delim_span();
                let (opening, closing) = brackets(group.delimiter());
                show(text, span.opening, out)?;
                check(text, span.opening, opening, out)?;
                list(text, group.stream(), out)?;
                show(text, span.closing, out)?;
                check(text, span.closing, closing, out)?;
            }
        }
    }
    Ok(())
}

fn listed(alloc: Global, text: &str) -> Result<String, AllocError> {
    let mut out = String::new(alloc);
    match lex(alloc, text) {
        Ok(tokens) => list(text, &tokens, &mut out)?,
        Err(e) => out.push_str(e.text())?,
    }
    Ok(out)
}

fn all_read(rt: &impl Abort, alloc: Global, table: &[(&str, &str)]) -> Result<(), Fail> {
    for (text, want) in table {
        assert_eq!(rt; listed(alloc, text)?.as_str(), *want, "{text}");
    }
    Ok(())
}

fn all_refused(
    rt: &impl Abort,
    alloc: Global,
    table: &[(&str, usize, usize)],
    want: &str,
) -> Result<(), Fail> {
    for (text, lo, hi) in table {
        match lex(alloc, text) {
            Ok(_) => assert!(rt; false, "{text}"),
            Err(e) => {
                assert_eq!(rt; e.text(), want, "{text}");
                assert!(rt;
                    e.start() == Span::new(*lo, *hi) && e.end() == e.start(),
                    "{text}"
                );
            }
        }
    }
    Ok(())
}

#[test]
fn words(rt: HostRuntime) -> Result<(), Fail> {
    all_read(&rt, rt.alloc(), &WORDS)
}

#[test]
fn comments(rt: HostRuntime) -> Result<(), Fail> {
    all_read(&rt, rt.alloc(), &COMMENTS)
}

#[test]
fn strings(rt: HostRuntime) -> Result<(), Fail> {
    all_read(&rt, rt.alloc(), &STRINGS)
}

#[test]
fn characters_and_lifetimes(rt: HostRuntime) -> Result<(), Fail> {
    all_read(&rt, rt.alloc(), &QUOTES)
}

#[test]
fn numbers(rt: HostRuntime) -> Result<(), Fail> {
    all_read(&rt, rt.alloc(), &NUMBERS)
}

#[test]
fn marks(rt: HostRuntime) -> Result<(), Fail> {
    all_read(&rt, rt.alloc(), &MARKS)
}

#[test]
fn groups(rt: HostRuntime) -> Result<(), Fail> {
    all_read(&rt, rt.alloc(), &GROUPS)
}

#[test]
fn unterminated(rt: HostRuntime) -> Result<(), Fail> {
    all_refused(
        &rt,
        rt.alloc(),
        &UNTERMINATED,
        "unterminated literal or comment",
    )
}

#[test]
fn unknown(rt: HostRuntime) -> Result<(), Fail> {
    all_refused(&rt, rt.alloc(), &UNKNOWN, "unknown start of token")
}

#[test]
fn documented(rt: HostRuntime) -> Result<(), Fail> {
    all_refused(
        &rt,
        rt.alloc(),
        &DOCUMENTED,
        "documentation comments are not supported",
    )
}

#[test]
fn malformed(rt: HostRuntime) -> Result<(), Fail> {
    all_refused(&rt, rt.alloc(), &MALFORMED, "malformed number")
}

#[test]
fn unclosed(rt: HostRuntime) -> Result<(), Fail> {
    all_refused(&rt, rt.alloc(), &UNCLOSED, "unclosed delimiter")
}

#[test]
fn unexpected(rt: HostRuntime) -> Result<(), Fail> {
    all_refused(&rt, rt.alloc(), &UNEXPECTED, "unexpected closing delimiter")
}

/// `r`, as many `#`, `"a"` and as many `#`.
fn raw_string(alloc: Global, hashes: usize) -> Result<String, AllocError> {
    let mut out = String::from_str(alloc, "r")?;
    for _ in 0..hashes {
        out.push('#')?;
    }
    out.push_str("\"a\"")?;
    for _ in 0..hashes {
        out.push('#')?;
    }
    Ok(out)
}

#[test]
fn most_hashes(rt: HostRuntime) -> Result<(), Fail> {
    for (hashes, trees) in [(0, 1), (1, 1), (255, 1), (256, 514)] {
        let text = raw_string(rt.alloc(), hashes)?;
        match lex(rt.alloc(), text.as_str()) {
            Ok(tokens) => assert_eq!(rt; tokens.len(), trees, "{hashes}"),
            Err(_) => assert!(rt; false, "{hashes}"),
        }
    }
    Ok(())
}
