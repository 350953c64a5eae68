//! Paths read from lists made by hand, and what they print.

use crate::lists::{
    got, is, made, place, prints, put, put_group, read_path, show_error, show_path, text_is, tokens,
};
use crate::nothing::Nothing;
use std::alloc::{AllocError, Global};
use std::process::Abort;
use syn_mid::{
    AngleBracketedGenericArguments, Arguments, ModPath, ModStyle, ParenthesizedGenericArguments,
    Path, PathArguments, PathOf, PathSegment, ReturnTypeOf,
};
use token_core::token::{Gt, Lt, Paren, PathSep};
use token_core::{ByFn, Delimiter, Ident, Punctuated, Span, TokenStream, read_all_with};

fn path_read(rt: &impl Abort, alloc: Global, tokens: &TokenStream) -> String {
    let mut out = String::new(alloc);
    match read_all_with(alloc, ModStyle::<PathArguments<Nothing>>::new(), tokens) {
        Ok(path) => show_path(rt, &path, &mut out),
        Err(error) => show_error(rt, &error, &mut out),
    }
    out
}

fn path_is(rt: &impl Abort, alloc: Global, tokens: &TokenStream, wanted: &str) {
    let out = path_read(rt, alloc, tokens);
    text_is(rt, out.as_str(), wanted);
}

#[test]
fn reads_paths(rt: HostRuntime) {
    for (text, want) in [
        ("a", "a 0-1;"),
        ("r#try", "r#try 0-5;"),
        ("a :: b", "a 0-1;:: 2-3 3-4;b 5-6;"),
        (":: a", "leading 0-1 1-2;a 3-4;"),
        (
            "self :: Self :: crate :: super",
            "self 0-4;:: 5-6 6-7;Self 8-12;:: 13-14 14-15;crate 16-21;:: 22-23 23-24;super 25-30;",
        ),
        ("", "Expected 0-0 0-0"),
        ("::", "Expected 0-0 0-0"),
        ("_", "Expected 0-1 0-1"),
        ("try", "Expected 0-3 0-3"),
        ("! a", "Expected 0-1 0-1"),
        (
            "a ::",
            "ExpectedPathSegment unexpected end of input, expected path segment after `::` 0-0 0-0",
        ),
        (
            "a :: try",
            "ExpectedPathSegment expected path segment after `::` 5-8 5-8",
        ),
        ("a !", "Unexpected unexpected token 2-3 2-3"),
        ("a b", "Unexpected unexpected token 2-3 2-3"),
        // two lone marks are no `::`
        ("a : : b", "Unexpected unexpected token 2-3 2-3"),
    ] {
        path_is(&rt, rt.alloc(), &tokens(&rt, rt.alloc(), text), want);
    }
}

fn put_hidden(rt: &impl Abort, alloc: Global, text: &str, out: &mut TokenStream) {
    made(rt, put_group(alloc, Delimiter::None, text, out));
}

#[test]
fn reads_paths_in_invisible_groups(rt: HostRuntime) {
    let alloc = rt.alloc();
    let mut tokens = TokenStream::new(alloc);
    put_hidden(&rt, alloc, "a", &mut tokens);
    path_is(&rt, alloc, &tokens, "a 0-1;");
    put_hidden(&rt, alloc, ":: b", &mut tokens);
    path_is(&rt, alloc, &tokens, "a 0-1;:: 0-1 1-2;b 3-4;");
    let path = got(
        &rt,
        read_all_with(alloc, ByFn(Path::<Nothing>::parse_mod_style), &tokens),
    );
    is(&rt, path.segments.len() == 2, "two segments");
}

/// `<>`, after `::` if so wanted.
fn angles(alloc: Global, colon: Option<PathSep>) -> PathArguments<Nothing> {
    PathArguments::AngleBracketed(AngleBracketedGenericArguments {
        colon2_token: colon,
        lt_token: Lt {
            spans: [Span::new(7, 8)],
        },
        args: Punctuated::new(alloc),
        gt_token: Gt {
            spans: [Span::new(8, 9)],
        },
    })
}

fn separator() -> PathSep {
    PathSep {
        spans: [Span::new(5, 6), Span::new(6, 7)],
    }
}

fn push_segment(
    alloc: Global,
    segment: PathSegment<Nothing>,
    path: &mut Path<Nothing>,
) -> Result<(), AllocError> {
    if path.segments.empty_or_trailing() {
        path.segments.push_value(segment)?;
        path.segments.push_punct(separator())?;
    }
    Ok(())
}

/// Puts a segment and a mark at the end of a path that ends in a mark or has no segment.
fn put_segment(
    rt: &impl Abort,
    alloc: Global,
    text: &str,
    arguments: PathArguments<Nothing>,
    path: &mut Path<Nothing>,
) {
    let ident = made(rt, Ident::new(alloc, text, Span::new(1, 2)));
    let segment = PathSegment { ident, arguments };
    made(rt, push_segment(alloc, segment, path));
}

fn parentheses(alloc: Global) -> PathArguments<Nothing> {
    PathArguments::Parenthesized(ParenthesizedGenericArguments {
        paren_token: Paren { span: place() },
        inputs: Punctuated::new(alloc),
        output: ReturnTypeOf::Default,
    })
}

/// `::a<>::b::<>::c()::`, or no more than its first segments.
fn long_path(rt: &impl Abort, alloc: Global, segments: usize) -> Path<Nothing> {
    let mut path = Path {
        leading_colon: Some(separator()),
        segments: Punctuated::new(alloc),
    };
    if segments > 0 {
        put_segment(rt, alloc, "a", angles(alloc, None), &mut path);
    }
    if segments > 1 {
        put_segment(rt, alloc, "b", angles(alloc, Some(separator())), &mut path);
    }
    if segments > 2 {
        put_segment(rt, alloc, "c", parentheses(alloc), &mut path);
    }
    path
}

#[test]
fn prints_paths(rt: HostRuntime) {
    for (segments, want) in [
        (0, ":~ 5-6;: 6-7;"),
        (1, ":~ 5-6;: 6-7;a 1-2;< 7-8;> 8-9;:~ 5-6;: 6-7;"),
        (
            3,
            ":~ 5-6;: 6-7;a 1-2;< 7-8;> 8-9;:~ 5-6;: 6-7;b 1-2;:~ 5-6;: 6-7;< 7-8;> 8-9;:~ 5-6;: 6-7;c 1-2;( 50-51;end 60-61;:~ 5-6;: 6-7;",
        ),
    ] {
        let path = long_path(&rt, rt.alloc(), segments);
        prints(&rt, rt.alloc(), &path, want);
    }
}

fn ident_or_none<A: Arguments>(path: &PathOf<A>) -> &str {
    match path.get_ident() {
        Some(ident) => ident.text(),
        None => "none",
    }
}

/// The identifier that a path is, or the refusal of one that is none; whether it is `a`.
fn identified<A: Arguments>(rt: &impl Abort, alloc: Global, path: &PathOf<A>) -> String {
    let mut out = String::new(alloc);
    put(rt, ident_or_none(path), &mut out);
    if path.is_ident("a") {
        put(rt, " is a", &mut out);
    }
    put(rt, ";", &mut out);
    if path.segments.is_empty() {
        return out;
    }
    match path.require_ident(alloc) {
        Ok(ident) => put(rt, ident.text(), &mut out),
        Err(error) => show_error(rt, &error, &mut out),
    }
    out
}

/// It is identified so, and a refusal of it points so.
fn identifies<A: Arguments>(
    rt: &impl Abort,
    alloc: Global,
    path: &PathOf<A>,
    wanted: &str,
    points: &str,
) {
    let mut all = String::new(alloc);
    put(rt, wanted, &mut all);
    put(rt, points, &mut all);
    let out = identified(rt, alloc, path);
    text_is(rt, out.as_str(), all.as_str());
}

#[test]
fn tells_identifiers(rt: HostRuntime) {
    let refused = "none;ExpectedPathIdent expected this path to be an identifier";
    for (text, want, points) in [
        ("a", "a is a;a", ""),
        ("ab", "ab;ab", ""),
        ("self", "self;self", ""),
        (":: a", refused, " 3-4 3-4"),
        ("a :: b", refused, " 0-1 5-6"),
        (":: a :: b :: cd", refused, " 3-4 13-15"),
    ] {
        let path: Path<Nothing> = read_path(&rt, rt.alloc(), text);
        identifies(&rt, rt.alloc(), &path, want, points);
        let path: ModPath = read_path(&rt, rt.alloc(), text);
        identifies(&rt, rt.alloc(), &path, want, points);
    }
    let none = long_path(&rt, rt.alloc(), 0);
    identifies(&rt, rt.alloc(), &none, "none;", "");
}

/// It shows so.
fn path_shows(rt: &impl Abort, alloc: Global, path: &Path<Nothing>, wanted: &str) {
    let mut out = String::new(alloc);
    show_path(rt, path, &mut out);
    text_is(rt, out.as_str(), wanted);
}

#[test]
fn makes_paths(rt: HostRuntime) {
    let alloc = rt.alloc();
    let ident = made(&rt, Ident::new(alloc, "a", Span::new(3, 4)));
    let path = made(&rt, Path::<Nothing>::from_ident(alloc, ident));
    path_shows(&rt, alloc, &path, "a 3-4;");
    identifies(&rt, alloc, &path, "a is a;a", "");
}

#[test]
fn makes_paths_of_segments(rt: HostRuntime) {
    let alloc = rt.alloc();
    let ident = made(&rt, Ident::new(alloc, "a", Span::new(3, 4)));
    let arguments = angles(alloc, None);
    let segment = PathSegment { ident, arguments };
    let path = made(&rt, Path::from_segment(alloc, segment));
    path_shows(&rt, alloc, &path, "a 3-4 with arguments;");
    let want = "none;ExpectedPathIdent expected this path to be an identifier";
    identifies(&rt, alloc, &path, want, " 3-4 3-4");
}

/// What the path is as one without arguments, and that with arguments again, where none is there.
fn bare_and_back(rt: &impl Abort, alloc: Global, path: &Path<Nothing>, out: &mut String) {
    match made(rt, path.to_mod_path(alloc)) {
        Some(bare) => {
            show_path(rt, &bare, out);
            put(rt, "and ", out);
            let back = made(rt, Path::<Nothing>::from_mod_path(alloc, &bare));
            show_path(rt, &back, out);
        }
        None => put(rt, "none", out),
    }
}

fn bare_is(rt: &impl Abort, alloc: Global, path: &Path<Nothing>, wanted: &str) {
    let mut out = String::new(alloc);
    bare_and_back(rt, alloc, path, &mut out);
    text_is(rt, out.as_str(), wanted);
}

#[test]
fn paths_without_arguments_are_mod_paths(rt: HostRuntime) {
    let alloc = rt.alloc();
    for (text, wanted) in [
        ("a", "a 0-1;and a 0-1;"),
        (
            ":: self :: b",
            "leading 0-1 1-2;self 3-7;:: 8-9 9-10;b 11-12;and leading 0-1 1-2;self 3-7;:: 8-9 9-10;b 11-12;",
        ),
    ] {
        bare_is(&rt, alloc, &read_path(&rt, alloc, text), wanted);
    }
    let ident = made(&rt, Ident::new(alloc, "a", Span::new(3, 4)));
    let arguments = angles(alloc, None);
    let segment = PathSegment { ident, arguments };
    let path = made(&rt, Path::from_segment(alloc, segment));
    bare_is(&rt, alloc, &path, "none");
}
