//! What the readers answer through C.

use kulojenta::{read, read_within, readers, Kind, Refusal, LIMIT};
use std::thread;

/// What was read, or the refusal with its place.
fn said(reader: &str, text: &str) -> String {
    match read(reader, text) {
        Ok(shown) => shown,
        Err(it) => format!("{it} at {}..{} ({:?})", it.start(), it.end(), it.kind()),
    }
}

#[test]
fn texts_are_read() {
    for (reader, text, wanted) in [
        ("Type", "Vec<T>", "Vec < T >"),
        ("Type", "[u8; 2 * N]", "[u8 ; 2 * N]"),
        ("Macro", "a::b!{x y}", "a :: b ! { x y }"),
        ("Attribute::parse_outer", "", ""),
        (
            "Attribute::parse_outer",
            "#[doc = concat!(\"a\", \"é\")]",
            "# [doc = concat ! (\"a\" , \"é\")]",
        ),
        (
            "Generics",
            "<T: 'a + Copy, const N: usize = 3>",
            "< T : 'a + Copy , const N : usize = 3 >",
        ),
        ("Pat::parse_multi", "Some(x) | None", "Some (x) | None"),
        ("TypeParamBound", "?Sized", "? Sized"),
    ] {
        assert_eq!(said(reader, text), wanted, "{reader} of {text}");
    }
}

#[test]
fn refusals_say_where() {
    for (reader, text, wanted) in [
        ("Type", "Vec<", "unexpected end of input"),
        ("Type", "a b", "unexpected token at 2..3 (Unexpected)"),
        ("Type", "(é, \"", "unterminated literal or comment at 5..6"),
        (
            "Macro",
            "m!",
            "unexpected end of input, expected delimiter at 2..2",
        ),
        ("Macro", "", "unexpected end of input"),
        ("Foo", "a", "unknown reader at 0..0 (UnknownReader)"),
        ("Type ", "a", "unknown reader at 0..0 (UnknownReader)"),
    ] {
        let said = said(reader, text);
        assert!(said.starts_with(wanted), "{reader} of {text}: {said}");
    }
    assert!(read("Foo", "a").unwrap_err().is_unknown_reader());
    assert!(!read("Type", "").unwrap_err().is_out_of_memory());
}

/// The forms of `checks/depth`, and one more: the reader, what is repeated before and after what stands in the middle, how many levels each takes, and
/// how many the last one takes more.
const FORMS: [(&str, &str, &str, &str, usize, usize); 19] = [
    ("Type", "Vec<", "A", ">", 3, 0),
    ("Type", "(", "A", ")", 1, 0),
    ("Type", "&", "A", "", 1, 0),
    ("Type", "[", "A", "]", 1, 0),
    ("Pat::parse_multi", "(", "a", ")", 1, 0),
    ("Pat::parse_multi", "&", "a", "", 1, 0),
    ("Type", "(A, ", "A", ")", 1, 0),
    ("Type", "*const ", "A", "", 1, 0),
    ("Type", "fn(", "A", ")", 2, 0),
    ("Type", "fn() -> ", "A", "", 2, 0),
    ("Type", "dyn A<", "B", ">", 4, 0),
    ("Type", "impl A<", "B", ">", 4, 0),
    ("Type", "A<B = ", "A", ">", 3, 0),
    ("Type", "A<B: C<", "A", ">>", 6, 0),
    ("Type", "<", "A", " as B>::C", 3, 0),
    ("Pat::parse_multi", "[", "a", "]", 1, 0),
    ("Pat::parse_multi", "A(", "a", ")", 1, 0),
    ("Pat::parse_multi", "a @ ", "a", "", 1, 0),
    ("Type", "unsafe<'a> ", "A", "", 2, 3),
];

/// Whether so many of a form are too deep; fewer are read.
fn is_too_deep(form: (&str, &str, &str, &str, usize, usize), count: usize) -> bool {
    let (reader, before, within, after, ..) = form;
    let text = before.repeat(count) + within + &after.repeat(count);
    match read(reader, &text) {
        Ok(_) => false,
        Err(it) if it.kind() == Kind::NestedTooDeep => true,
        Err(it) => panic!("{count} of {before}: {it}"),
    }
}

/// Each form at the deepest that the limit lets pass is answered within 2 MB, and at the next level refused.
#[test]
fn deep_texts_are_refused() {
    let try_all = || {
        for form in FORMS {
            let most = (LIMIT - form.5) / form.4;
            for count in [most, most + 1, 200_000] {
                assert_eq!(
                    is_too_deep(form, count),
                    count > most,
                    "{count} of {}",
                    form.1
                );
            }
        }
    };
    let thread = thread::Builder::new().stack_size(2 << 20).spawn(try_all);
    thread.unwrap().join().unwrap();
}

#[test]
fn limits_are_the_callers() {
    let refusal = read_within("Type", "Vec<(A)>", 3).unwrap_err();
    assert_eq!(refusal.to_string(), "nested too deep");
    assert_eq!((refusal.start(), refusal.end()), (4, 5));
    assert!(read_within("Type", "Vec<(A)>", 4).is_ok());
}

#[test]
fn documentation_is_read() {
    for (reader, text, wanted) in [
        (
            "Attribute::parse_outer",
            "/// A.\n#[b]",
            "# [doc = \" A.\"] # [b]",
        ),
        (
            "Attribute::parse_inner",
            "//! \"A\"\n/*! B */",
            "# ! [doc = \" \\\"A\\\"\"] # ! [doc = \" B \"]",
        ),
        ("Macro", "a!{/// A.\nb}", "a ! { # [doc = \" A.\"] b }"),
        (
            "Attribute::parse_outer",
            "/// A.\r \n",
            "unknown start of token at 0..1 (UnknownToken)",
        ),
    ] {
        assert_eq!(said(reader, text), wanted, "{reader} of {text}");
    }
    // (the attribute takes the level of its group)
    let refusal = read_within("Macro", "a!{/// A.\nb}", 1).unwrap_err();
    assert_eq!((refusal.start(), refusal.end()), (3, 9));
    assert!(read_within("Macro", "a!{/// A.\nb}", 2).is_ok());
}

#[test]
fn kinds_have_names() {
    let kind = |reader, text| read(reader, text).unwrap_err().kind();
    assert_eq!(kind("Foo", "a"), Kind::UnknownReader);
    assert_eq!(kind("Type", "[A"), Kind::UnclosedDelimiter);
    assert_eq!(kind("Type", "dyn 'a"), Kind::NoTraitInObject);
    assert_eq!(kind("Type", "impl 'a"), Kind::NoTraitInImpl);
    assert_eq!(kind("Type", "\""), Kind::UnterminatedToken);
}

#[test]
fn readers_are_listed() {
    let readers = readers();
    assert_eq!(readers[0], "Macro");
    assert!(readers.contains(&"Pat::parse_multi".to_string()));
    for reader in &readers {
        let refusal = read(reader, "\"").unwrap_err();
        assert!(!refusal.is_unknown_reader(), "{reader}");
    }
}

#[test]
fn threads_read_at_once() {
    fn are_shared<T: Send + Sync>() {}
    are_shared::<Refusal>();
    are_shared::<Kind>();
    let threads = (0..8).map(|_| {
        thread::spawn(|| {
            for _ in 0..300 {
                assert_eq!(
                    read("Type", "Map<K, [u8; 2]>").unwrap(),
                    "Map < K , [u8 ; 2] >"
                );
                assert_eq!(read("Type", "a b").unwrap_err().start(), 2);
            }
        })
    });
    for it in threads.collect::<Vec<_>>() {
        it.join().unwrap();
    }
}

#[test]
fn the_end_is_a_place_at_the_end() {
    let text = "Map<K,\n    V";
    let refusal = read("Type", text).unwrap_err();
    assert_eq!((refusal.start(), refusal.end()), (text.len(), text.len()));
}

#[test]
fn notes_are_rendered() {
    let text = "fn(\n\té, a b)";
    let refusal = read("Type", text).unwrap_err();
    assert_eq!(
        refusal.note("a.rs", text),
        "a.rs:2:7: expected `,`\n\té, a b)\n\t     ^"
    );
}

#[test]
fn notes_without_a_place_have_no_line() {
    let refusal = read("Tipe", "Vec<T>").unwrap_err();
    assert_eq!(refusal.note("a.rs", "Vec<T>"), "a.rs: unknown reader");
}

#[test]
fn long_prints_are_whole() {
    let text = format!("({})", "a,".repeat(20_000));
    let shown = read("Type", &text).unwrap();
    assert_eq!(shown, format!("({})", vec!["a"; 20_000].join(" , ") + " ,"));
    // (an empty text has room for no print, and `::` is longer printed than written)
    assert_eq!(
        read("Path::parse_mod_style", "::a::b").unwrap(),
        ":: a :: b"
    );
}
