//! Runs over inputs and outputs of memory, and over ones that fail.

use std::alloc::{AllocError, Global};
use std::io::{ErrorKind, Read, Write};
use std::io;
use std::test::Fail;
use syn_run::channel::{Plain, Room};
use syn_run::run::run;
use syn_sample::sample::Sample;

/// A reader that gives its bytes and then fails.
#[derive(Drop)]
struct Breaking<'a> {
    rest: &'a [u8],
}

impl Read for Breaking<'_> {
    fn read(&mut self, buf: &mut [u8]) -> io::Result<usize> {
        if self.rest.is_empty() {
            return Err(io::Error::from(ErrorKind::Other));
        }
        self.rest.read(buf)
    }
}

/// A writer that takes some bytes and then fails.
#[derive(Drop)]
struct Short {
    taken: Vec<u8>,
    room: usize,
}

impl Write for Short {
    fn write(&mut self, buf: &[u8]) -> io::Result<usize> {
        if buf.is_empty() {
            return Ok(0);
        }
        if self.room == 0 {
            return Err(io::Error::from(ErrorKind::Other));
        }
        self.room -= 1;
        self.taken.write(&buf[..1])
    }

    fn flush(&mut self) -> io::Result<()> {
        Ok(())
    }
}

/// A reader that is interrupted before each byte that it gives.
#[derive(Drop)]
struct Halting<'a> {
    rest: &'a [u8],
    is_interrupted: bool,
}

impl Read for Halting<'_> {
    fn read(&mut self, buf: &mut [u8]) -> io::Result<usize> {
        self.is_interrupted = !self.is_interrupted;
        if self.is_interrupted {
            return Err(io::Error::from(ErrorKind::Interrupted));
        }
        if buf.is_empty() {
            return Ok(0);
        }
        self.rest.read(&mut buf[..1])
    }
}

/// A writer that knows whether it was flushed since the last write, and may refuse that.
#[derive(Drop)]
struct Flushing {
    taken: Vec<u8>,
    is_flushed: bool,
    can_flush: bool,
}

impl Write for Flushing {
    fn write(&mut self, buf: &[u8]) -> io::Result<usize> {
        self.is_flushed = false;
        self.taken.write(buf)
    }

    fn flush(&mut self) -> io::Result<()> {
        if !self.can_flush {
            return Err(io::Error::from(ErrorKind::Other));
        }
        self.is_flushed = true;
        Ok(())
    }
}

/// The status and what was written.
fn ran(alloc: Global, name: &str, input: &[u8]) -> Result<(u8, Vec<u8>), AllocError> {
    let mut output = Plain(Vec::new(alloc));
    let mut input = input;
    let status = run::<Sample, _, _>(alloc, name, &mut input, &mut output);
    let Plain(written) = output;
    Ok((status, written))
}

/// The status, and the room that was written to.
fn ran_within<const N: usize>(alloc: Global, name: &str, input: &[u8]) -> (u8, Room<N>) {
    let mut output = Room::new();
    let mut input = input;
    let status = run::<Sample, _, _>(alloc, name, &mut input, &mut output);
    (status, output)
}

#[test]
fn says(rt: HostRuntime) -> Result<(), Fail> {
    let rows = [
        ("Macro", "a::b!{x y}", 0, "a :: b ! { x y }\n"),
        ("Macro", "::a!()", 0, ":: a ! ()\n"),
        (
            "Macro",
            "m!",
            1,
            "error: unexpected end of input, expected delimiter\n",
        ),
        (
            "Path::parse_mod_style",
            "self::Self::crate",
            0,
            "self :: Self :: crate\n",
        ),
        (
            "Path::parse_mod_style",
            "a::",
            1,
            "error: unexpected end of input, expected path segment after `::`\n",
        ),
        (
            "Path::parse_mod_style",
            "a!",
            1,
            "error: unexpected token\n",
        ),
        (
            "Attribute::parse_outer",
            "#[foo = true]",
            0,
            "# [foo = true]\n",
        ),
        (
            "Attribute::parse_outer",
            "#[unsafe(no_mangle)]",
            0,
            "# [unsafe (no_mangle)]\n",
        ),
        (
            "Attribute::parse_outer",
            "#[form(min = -1, max = 200)] #[a]",
            0,
            "# [form (min = - 1 , max = 200)] # [a]\n",
        ),
        ("Attribute::parse_outer", "", 0, "\n"),
        (
            "Attribute::parse_outer",
            "#[a = #[b]]",
            1,
            "error: unexpected attribute inside of attribute\n",
        ),
        ("Attribute::parse_inner", "#![no_std]", 0, "# ! [no_std]\n"),
        (
            "Attribute::parse_inner",
            "#[a]",
            1,
            "error: unexpected token\n",
        ),
        ("Meta", "a::b(c)", 0, "a :: b (c)\n"),
        ("MetaList", "a![b]", 1, "error: expected delimiter\n"),
        ("MetaNameValue", "a = \"b\"", 0, "a = \"b\"\n"),
        ("Foo", "a", 2, "error: unknown reader\n"),
        ("", "a", 2, "error: unknown reader\n"),
        ("Macro", "m!(", 1, "error: unclosed delimiter\n"),
        ("Macro", "m!)", 1, "error: unexpected closing delimiter\n"),
        (
            "Macro",
            "m!(\")",
            1,
            "error: unterminated literal or comment\n",
        ),
        ("Macro", "m!(`)", 1, "error: unknown start of token\n"),
    ];
    for (name, input, status, line) in rows {
        let (got, written) = ran(rt.alloc(), name, input.as_bytes())?;
        assert_eq!(rt; got, status, "{name} of {input}");
        assert!(rt; written.as_slice() == line.as_bytes(), "{name} of {input}");
    }
    Ok(())
}

#[test]
fn refuses(rt: HostRuntime) -> Result<(), Fail> {
    for (name, input) in [
        ("Path::parse_mod_style", "try"),
        ("Attribute::parse_outer", "#[fn]"),
        ("Attribute::parse_outer", "#[k = a b]"),
    ] {
        let (status, written) = ran(rt.alloc(), name, input.as_bytes())?;
        assert_eq!(rt; status, 1, "{input}");
        assert!(rt; written.starts_with(b"error: "), "{input}");
    }
    Ok(())
}

#[test]
fn refuses_bytes_that_are_no_text(rt: HostRuntime) -> Result<(), Fail> {
    let (status, written) = ran(rt.alloc(), "Macro", b"m!(\xff)")?;
    assert_eq!(rt; status, 1);
    assert!(rt; written.as_slice() == "error: input is not UTF-8\n".as_bytes());
    Ok(())
}

#[test]
fn says_that_reading_failed(rt: HostRuntime) -> Result<(), Fail> {
    for rest in ["", "m!"] {
        let mut input = Plain(Breaking {
            rest: rest.as_bytes(),
        });
        let mut output = Plain(Vec::new(rt.alloc()));
        let status = run::<Sample, _, _>(rt.alloc(), "Macro", &mut input, &mut output);
        assert_eq!(rt; status, 1);
        assert!(rt; output.0.as_slice() == "error: cannot read input\n".as_bytes());
    }
    Ok(())
}

#[test]
fn reads_nothing_for_an_unknown_name(rt: HostRuntime) -> Result<(), Fail> {
    let mut input: &[u8] = b"m!()";
    let mut output = Plain(Vec::new(rt.alloc()));
    let status = run::<Sample, _, _>(rt.alloc(), "Foo", &mut input, &mut output);
    assert_eq!(rt; status, 2);
    assert_eq!(rt; input.len(), 4);
    Ok(())
}

#[test]
fn ends_with_1_where_writing_fails(rt: HostRuntime) -> Result<(), Fail> {
    let rows = [
        ("Macro", "m!()", "m ! ()\n"),
        ("Foo", "", "error: unknown reader\n"),
        (
            "Macro",
            "m!",
            "error: unexpected end of input, expected delimiter\n",
        ),
    ];
    for (name, text, line) in rows {
        for room in 0..line.len() {
            let mut input = text.as_bytes();
            let mut output = Plain(Short {
                taken: Vec::new(rt.alloc()),
                room,
            });
            let status = run::<Sample, _, _>(rt.alloc(), name, &mut input, &mut output);
            assert_eq!(rt; status, 1, "{name} of {text} with room for {room}");
            assert!(rt; output.0.taken.as_slice() == &line.as_bytes()[..room]);
        }
    }
    Ok(())
}

#[test]
fn reads_on_after_an_interruption(rt: HostRuntime) -> Result<(), Fail> {
    let mut input = Plain(Halting {
        rest: b"a::b!{x y}",
        is_interrupted: false,
    });
    let mut output = Plain(Vec::new(rt.alloc()));
    let status = run::<Sample, _, _>(rt.alloc(), "Macro", &mut input, &mut output);
    assert_eq!(rt; status, 0);
    assert!(rt; output.0.as_slice() == "a :: b ! { x y }\n".as_bytes());
    Ok(())
}

#[test]
fn flushes_its_line(rt: HostRuntime) -> Result<(), Fail> {
    for (name, status) in [("Macro", 0), ("Foo", 2)] {
        for can_flush in [true, false] {
            let mut input = "m!()".as_bytes();
            let mut output = Plain(Flushing {
                taken: Vec::new(rt.alloc()),
                is_flushed: false,
                can_flush,
            });
            let got = run::<Sample, _, _>(rt.alloc(), name, &mut input, &mut output);
            let wanted = if can_flush { status } else { 1 };
            assert_eq!(rt; got, wanted, "{name}");
            assert_eq!(rt; output.0.is_flushed, can_flush, "{name}");
        }
    }
    Ok(())
}

#[test]
fn ends_with_1_only_where_its_room_ends(rt: HostRuntime) -> Result<(), Fail> {
    let line = "m ! ()\n".as_bytes();
    let (status, ample) = ran_within::<20>(rt.alloc(), "Macro", b"m!()");
    assert_eq!(rt; status, 0);
    assert!(rt; ample.written() == line);
    let (status, enough) = ran_within::<7>(rt.alloc(), "Macro", b"m!()");
    assert_eq!(rt; status, 0);
    assert!(rt; enough.written() == line);
    let (status, short) = ran_within::<6>(rt.alloc(), "Macro", b"m!()");
    assert_eq!(rt; status, 1);
    assert!(rt; short.written().is_empty());
    Ok(())
}

#[test]
fn keeps_its_room_where_a_further_line_does_not_fit(rt: HostRuntime) -> Result<(), Fail> {
    let mut output: Room<13> = Room::new();
    for status in [0, 1] {
        let mut input = "m!()".as_bytes();
        let got = run::<Sample, _, _>(rt.alloc(), "Macro", &mut input, &mut output);
        assert_eq!(rt; got, status);
        assert!(rt; output.written() == "m ! ()\n".as_bytes());
    }
    Ok(())
}
