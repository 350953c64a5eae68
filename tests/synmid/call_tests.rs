//! Reads of a text into room that a caller gives, notes there, and what is said to people of a text that is refused.

use std::alloc::Global;
use syn_run::call::{Call, note_into, read_into};
use syn_run::complaint::complaint;
use syn_run::fault::Fault;
use syn_run::readers::Reader;
use syn_run::run::read_text;
use syn_sample::sample::Sample;
use std::test::Fail;
use token_core::ErrorKind;

const ROOM: usize = 64;
const LIMIT: usize = 4;

/// A call with so much room, and the whole room after it, which held dots.
fn called(alloc: Global, name: &[u8], text: &[u8], size: usize) -> (Call, [u8; ROOM]) {
    let mut room = [b'.'; ROOM];
    let call = read_into::<Sample>(alloc, name, text, LIMIT, &mut room[..size]);
    (call, room)
}

/// What a call says: its numbers.
fn numbers(call: Call) -> (u32, usize, u32, usize, usize) {
    (call.status, call.bytes, call.kind, call.start, call.end)
}

#[test]
fn texts_that_fit_are_written(rt: HostRuntime) {
    for (name, text, size, wanted, said) in [
        ("Type", "Vec<T>", ROOM, (0, 9, 0, 0, 0), "Vec < T >"),
        ("Type", "Vec<T>", 9, (0, 9, 0, 0, 0), "Vec < T >"),
        ("Attribute::parse_outer", "", 0, (0, 0, 0, 0, 0), ""),
        ("Type", "a b", ROOM, (1, 16, 18, 2, 3), "unexpected token"),
        ("Type", "&Vec<T>", ROOM, (0, 11, 0, 0, 0), "& Vec < T >"),
        ("Type", "[Vec<&T>]", ROOM, (1, 15, 50, 5, 6), "nested too deep"),
        ("Attribute::parse_outer", "/// A.", ROOM, (0, 15, 0, 0, 0), "# [doc = \" A.\"]"),
        ("Foo", "a b", ROOM, (2, 14, 1, 0, 0), "unknown reader"),
    ] {
        let (call, room) = called(rt.alloc(), name.as_bytes(), text.as_bytes(), size);
        assert_eq!(rt; numbers(call), wanted);
        assert_eq!(rt; &room[..said.len()], said.as_bytes());
        assert!(rt; room[said.len()..].iter().all(|it| *it == b'.'));
    }
}

#[test]
fn texts_that_do_not_fit_are_wanted(rt: HostRuntime) {
    for (name, text, size, wanted) in [
        ("Type", "Vec<T>", 8, (3, 9, 0, 0, 0)),
        ("Type", "Vec<T>", 0, (3, 9, 0, 0, 0)),
        ("Type", "a b", 15, (3, 16, 18, 2, 3)),
        ("Foo", "a b", 3, (3, 14, 1, 0, 0)),
    ] {
        let (call, room) = called(rt.alloc(), name.as_bytes(), text.as_bytes(), size);
        assert_eq!(rt; numbers(call), wanted);
        assert!(rt; room.iter().all(|it| *it == b'.'));
    }
}

#[test]
fn what_is_no_text_is_refused(rt: HostRuntime) {
    let (call, room) = called(rt.alloc(), b"Type", b"a\xff", ROOM);
    assert_eq!(rt; numbers(call), (1, 18, 2, 0, 0));
    assert_eq!(rt; &room[..18], b"input is not UTF-8".as_slice());
    let (call, room) = called(rt.alloc(), b"Type\xff", b"a", ROOM);
    assert_eq!(rt; numbers(call), (2, 14, 1, 0, 0));
    assert_eq!(rt; &room[..14], b"unknown reader".as_slice());
}

#[test]
fn notes_are_written(rt: HostRuntime) {
    let mut room = [b'.'; ROOM];
    let call = note_into(rt.alloc(), b"a.rs", b"a\nb c\n", b"unexpected", (4, 5), &mut room);
    let wanted = b"a.rs:2:3: unexpected\nb c\n  ^";
    assert_eq!(rt; numbers(call), (0, wanted.len(), 0, 0, 0));
    assert_eq!(rt; &room[..wanted.len()], wanted.as_slice());
    let call = note_into(rt.alloc(), b"a.rs", b"a", b"\xff", (0, 1), &mut room);
    assert_eq!(rt; numbers(call), (1, 18, 2, 0, 0));
}

#[test]
fn the_end_of_a_text_is_a_place(rt: HostRuntime) {
    for (name, text) in [("Type", "Map<K,"), ("Macro", "m!"), ("Path::parse_mod_style", "a::"), ("Type", "")] {
        let Some(reader) = Reader::named(name) else {
            panic!(rt; "no reader");
        };
        match read_text::<Sample>(rt.alloc(), reader, text) {
            Ok(_) => panic!(rt; "it is read"),
            Err(refusal) => {
                assert_eq!(rt; (refusal.start().lo, refusal.start().hi), (text.len(), text.len()));
            }
        }
    }
}

#[test]
fn people_are_told(rt: HostRuntime) -> Result<(), Fail> {
    let text = "(a,\n\tb c)\n";
    let Some(reader) = Reader::named("Type") else {
        panic!(rt; "no reader");
    };
    match read_text::<Sample>(rt.alloc(), reader, text) {
        Ok(_) => panic!(rt; "it is read"),
        Err(refusal) => {
            assert!(rt; refusal.kind() == ErrorKind::Expected);
            let said = complaint(rt.alloc(), "a.rs", text, &Fault::from(refusal))?;
            assert_eq!(rt; said.as_str(), "a.rs:2:4: expected `,`\n\tb c)\n\t  ^");
        }
    }
    let said = complaint(rt.alloc(), "a.rs", "", &Fault::CannotRead)?;
    assert_eq!(rt; said.as_str(), "a.rs: cannot read input");
    Ok(())
}
