//! Lines of JSON: what is escaped, prints, refusals with a place and without one, and the names of kinds.

use kulojenta_lines::{Place, name_of, placeless_line, print_line, refusal_line};
use std::test::Fail;
use token_core::ErrorKind;

#[test]
fn strings(rt: HostRuntime) -> Result<(), Fail> {
    for (text, want) in [
        ("", ""),
        ("Vec < T >", "Vec < T >"),
        ("\"a\\n\"", "\\\"a\\\\n\\\""),
        ("a\nb\r\tc", "a\\u000ab\\u000d\\u0009c"),
        ("\0\u{1}\u{1f} ", "\\u0000\\u0001\\u001f "),
        ("~\u{7f}\u{80}\u{9f}\u{a0}", "~\\u007f\\u0080\\u009f\u{a0}"),
        ("\u{2027}\u{2028}\u{2029}\u{202a}", "\u{2027}\\u2028\\u2029\u{202a}"),
        ("/ \u{e9} \u{5b57} \u{1f600}", "/ \u{e9} \u{5b57} \u{1f600}"),
    ] {
        let got = print_line(rt.alloc(), text)?;
        let want = format!(in rt.alloc(); "{{\"print\":\"{want}\"}}")?;
        assert_eq!(rt; got.as_str(), want.as_str());
    }
    Ok(())
}

#[test]
fn refusals(rt: HostRuntime) -> Result<(), Fail> {
    let place = Place {
        start: 4,
        end: 18446744073709551615,
        line: 1,
        column: 0,
    };
    let got = refusal_line(rt.alloc(), name_of(ErrorKind::Expected), "expected `\"`", place)?;
    let want = "{\"kind\":\"Expected\",\"text\":\"expected `\\\"`\",\"start\":4,\"end\":18446744073709551615,\"line\":1,\"column\":0}";
    assert_eq!(rt; got.as_str(), want);
    let got = placeless_line(rt.alloc(), "NotUtf8", "\\")?;
    assert_eq!(rt; got.as_str(), "{\"kind\":\"NotUtf8\",\"text\":\"\\\\\"}");
    Ok(())
}

#[test]
fn kinds(rt: HostRuntime) -> Result<(), Fail> {
    for (kind, want) in [
        (ErrorKind::OutOfMemory, "OutOfMemory"),
        (ErrorKind::Expected, "Expected"),
        (ErrorKind::UnclosedDelimiter, "UnclosedDelimiter"),
        (ErrorKind::NestedTooDeep, "NestedTooDeep"),
    ] {
        assert_eq!(rt; name_of(kind), want);
    }
    Ok(())
}
