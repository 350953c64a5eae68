//! Macro calls read from lists made by hand, and what they print.

use crate::lists::{
    is, list, made, place, prints, put, put_group, read_path, show_error, show_path, show_print,
    show_span, text_is, tokens, tokens_of,
};
use std::alloc::{AllocError, Global};
use std::process::Abort;
use syn_mid::{Macro, MacroDelimiter};
use token_core::token::{Brace, Bracket, Not, Paren};
use token_core::{Delimiter, Error, ErrorKind, Span, ToTokens, TokenStream, read_all};

/// It is refused with this kind.
fn refused<T: Drop>(rt: &impl Abort, outcome: Result<T, Error>, kind: ErrorKind) {
    match outcome {
        Ok(_) => panic!(rt; "read, and not refused"),
        Err(error) => is(rt, error.kind() == kind, error.text()),
    }
}

fn opens(delimiter: &MacroDelimiter) -> &'static str {
    match delimiter {
        MacroDelimiter::Paren(_) => ";(",
        MacroDelimiter::Brace(_) => ";{",
        MacroDelimiter::Bracket(_) => ";[",
    }
}

fn show_macro(rt: &impl Abort, call: &Macro, out: &mut String) {
    show_path(rt, &call.path, out);
    put(rt, "!", out);
    show_span(rt, call.bang_token.spans[0], out);
    put(rt, opens(&call.delimiter), out);
    show_span(rt, call.delimiter.span().opening, out);
    show_span(rt, call.delimiter.span().closing, out);
    if call.delimiter.is_brace() {
        put(rt, " brace", out);
    }
    put(rt, ";", out);
    list(rt, &call.tokens, out);
}

/// What a list is read as, and what the call prints.
fn macro_read(rt: &impl Abort, alloc: Global, tokens: &TokenStream) -> String {
    let mut out = String::new(alloc);
    match read_all::<Macro>(alloc, tokens) {
        Ok(call) => {
            show_macro(rt, &call, &mut out);
            put(rt, "=", &mut out);
            show_print(rt, alloc, &call, &mut out);
        }
        Err(error) => show_error(rt, &error, &mut out),
    }
    out
}

fn macro_is(rt: &impl Abort, alloc: Global, tokens: &TokenStream, wanted: &str) {
    let out = macro_read(rt, alloc, tokens);
    text_is(rt, out.as_str(), wanted);
}

/// The tokens of a text, and of a group after it.
fn with_group(
    rt: &impl Abort,
    alloc: Global,
    text: &str,
    delimiter: Delimiter,
    inside: &str,
) -> TokenStream {
    let mut tokens = tokens(rt, alloc, text);
    made(rt, put_group(alloc, delimiter, inside, &mut tokens));
    tokens
}

#[test]
fn reads_macros(rt: HostRuntime) {
    for (text, delimiter, inside, want) in [
        (
            "a :: b !",
            Delimiter::Brace,
            "x y",
            "a 0-1;:: 2-3 3-4;b 5-6;! 7-8;{ 50-51 60-61 brace;x 0-1;y 2-3;=a 0-1;:~ 2-3;: 3-4;b 5-6;! 7-8;{ 50-51;x 0-1;y 2-3;end 60-61;",
        ),
        (
            ":: a !",
            Delimiter::Parenthesis,
            "",
            "leading 0-1 1-2;a 3-4;! 5-6;( 50-51 60-61;=:~ 0-1;: 1-2;a 3-4;! 5-6;( 50-51;end 60-61;",
        ),
        (
            "self !",
            Delimiter::Bracket,
            "::",
            "self 0-4;! 5-6;[ 50-51 60-61;:~ 0-1;: 1-2;=self 0-4;! 5-6;[ 50-51;:~ 0-1;: 1-2;end 60-61;",
        ),
        ("m", Delimiter::Brace, "x", "Expected 50-51 50-51"),
        ("try !", Delimiter::Brace, "x", "Expected 0-3 0-3"),
    ] {
        let tokens = with_group(&rt, rt.alloc(), text, delimiter, inside);
        macro_is(&rt, rt.alloc(), &tokens, want);
    }
}

#[test]
fn refuses_macros_without_a_group(rt: HostRuntime) {
    for (text, want) in [
        (
            "m !",
            "ExpectedDelimiter unexpected end of input, expected delimiter 0-0 0-0",
        ),
        ("m ! x", "ExpectedDelimiter expected delimiter 4-5 4-5"),
        ("m", "Expected 0-0 0-0"),
    ] {
        macro_is(&rt, rt.alloc(), &tokens(&rt, rt.alloc(), text), want);
    }
    let tokens = with_group(&rt, rt.alloc(), "m !", Delimiter::None, "x");
    let read = read_all::<Macro>(rt.alloc(), &tokens);
    refused(&rt, read, ErrorKind::ExpectedDelimiter);
}

#[test]
fn prints_calls(rt: HostRuntime) {
    let call = Macro {
        path: read_path(&rt, rt.alloc(), ":: a :: b"),
        bang_token: Not {
            spans: [Span::new(3, 4)],
        },
        delimiter: MacroDelimiter::Bracket(Bracket { span: place() }),
        tokens: tokens(&rt, rt.alloc(), "x"),
    };
    let want = ":~ 0-1;: 1-2;a 3-4;:~ 5-6;: 6-7;b 8-9;! 3-4;[ 50-51;x 0-1;end 60-61;";
    prints(&rt, rt.alloc(), &call, want);
}

#[test]
fn tells_braces(rt: HostRuntime) {
    let brace = MacroDelimiter::Brace(Brace { span: place() });
    is(&rt, brace.is_brace(), "brace");
    let paren = MacroDelimiter::Paren(Paren { span: place() });
    is(&rt, !paren.is_brace(), "paren");
}

fn read_and_print(alloc: Global, tokens: &TokenStream, out: &mut TokenStream) -> Result<(), Error> {
    let call = read_all::<Macro>(alloc, tokens)?;
    call.to_tokens(alloc, out)?;
    Ok(())
}

fn macro_call(alloc: Global) -> Result<TokenStream, AllocError> {
    let mut tokens = tokens_of(alloc, ":: a :: b !")?;
    put_group(alloc, Delimiter::Brace, "x y", &mut tokens)?;
    Ok(tokens)
}

/// It is read and printed, or refused for want of memory with nothing printed.
fn is_borne(rt: &impl Abort, alloc: Global, tokens: &TokenStream) {
    let mut out = TokenStream::new(alloc);
    match read_and_print(alloc, tokens, &mut out) {
        Ok(()) => is(rt, out.len() == 8, "eight trees printed"),
        Err(error) => {
            let is_memory = error.kind() == ErrorKind::OutOfMemory;
            is(rt, is_memory & out.is_empty(), "nothing printed");
        }
    }
}

/// Passes whichever allocation fails: the refusal is for want of memory, and nothing is printed.
#[test]
fn bears_want_of_memory(rt: HostRuntime) {
    match macro_call(rt.alloc()) {
        Ok(tokens) => is_borne(&rt, rt.alloc(), &tokens),
        Err(_) => {}
    }
}
