//! How deep texts nest: as deep as their lists.

use std::alloc::{AllocError, Global};
use std::process::Abort;
use std::test::Fail;
use token_core::{Error, ErrorKind, check_nesting};
use token_text::{Docs, check_text, lex_with};

/// What was answered: the kind and the place of a refusal.
fn told(outcome: Result<(), Error>) -> Option<(ErrorKind, usize, usize)> {
    match outcome {
        Ok(()) => None,
        Err(refusal) => Some((refusal.kind(), refusal.start().lo, refusal.start().hi)),
    }
}

/// A text and its list are refused alike, within each limit.
fn agree(rt: &impl Abort, alloc: Global, text: &str, docs: Docs) {
    let Ok(tokens) = lex_with(alloc, text, docs) else {
        panic!(rt; "no list: {text}");
    };
    for limit in 0..12 {
        let found = told(check_text(alloc, text, docs, limit));
        let wanted = told(check_nesting(alloc, &tokens, limit));
        if found != wanted {
            panic!(rt; "within {limit}: {text}");
        }
    }
}

#[test]
fn texts_are_refused_as_their_lists(rt: HostRuntime) {
    for text in [
        "",
        " // a\n",
        "a (b) [c {d}]",
        "((()) (())) []",
        "Vec<Map<K, V>>",
        "&'a mut &'static *const dyn fn(&A) -> unsafe<'a> box for<'a> impl B",
        "'dyn &'let & 'r#a &r#dyn a",
        "\\(A<B\\) < C, D > ; & E | & F => & G",
        "1 << a < b, (c) < d, \"e\" < f",
        "a @ b @ (c @ d) { e } @ f",
        "/* & */ & // &\n & [& /* /* & */ */]",
    ] {
        agree(&rt, rt.alloc(), text, Docs::Refuse);
        agree(&rt, rt.alloc(), text, Docs::Read);
    }
}

#[test]
fn documentation_has_the_levels_of_its_attribute(rt: HostRuntime) {
    for text in [
        "/// A.",
        "(//! A.\n& b)",
        "& /** A */ 'a & b",
        "a /// A.\n & /*! B */ & c /// D",
        "[/// A<B<C<D\n &E]",
    ] {
        agree(&rt, rt.alloc(), text, Docs::Read);
    }
    let alloc = rt.alloc();
    let deep = Some((ErrorKind::NestedTooDeep, 2, 8));
    assert!(rt; told(check_text(alloc, "a /// A.\n", Docs::Read, 0)) == deep);
    assert!(rt; told(check_text(alloc, "a /// A.\n", Docs::Read, 1)).is_none());
    assert!(rt; told(check_text(alloc, "a /// A.\n", Docs::Refuse, 0)).is_none());
}

/// So many times a text.
fn repeated(alloc: Global, text: &str, count: usize) -> Result<String, AllocError> {
    let mut out = String::new(alloc);
    for _ in 0..count {
        out.push_str(text)?;
    }
    Ok(out)
}

/// A text of 200,000 levels is refused at the first token above the limit, whether the groups in it end or not.
#[test]
fn texts_of_any_depth_are_refused(rt: HostRuntime) -> Result<(), Fail> {
    for (part, levels) in [
        ("(", 1),
        ("[", 1),
        ("{", 1),
        ("\\(", 1),
        ("Vec<", 3),
        ("&", 1),
        ("*const ", 1),
        ("fn(", 2),
        ("fn() -> ", 2),
        ("dyn A<", 4),
        ("impl A<", 4),
        ("A<B = ", 3),
        ("A<B: C<", 6),
        ("<A as ", 3),
        ("unsafe<'a> ", 2),
        ("A(", 1),
        ("a @ ", 1),
        ("box ", 1),
        ("(/// A.\n", 1),
    ] {
        let text = repeated(rt.alloc(), part, 200_000)?;
        let found = told(check_text(rt.alloc(), text.as_str(), Docs::Read, 128));
        let Some((ErrorKind::NestedTooDeep, start, _)) = found else {
            panic!(&rt; "{part}");
        };
        // (a level begins with its token, which stands in the turn that passes the limit)
        let turn = start / part.len() + 1;
        if turn * levels + 4 <= 128 || turn > 129 {
            panic!(&rt; "{part}: {turn} turns");
        }
    }
    Ok(())
}
