//! The lines of an input: how they end, what is left behind them, and an input that fails.

use kulojenta_lines::next_line;
use std::io;
use std::io::{BufReader, ErrorKind, Read};
use std::test::Fail;

#[test]
fn lines(rt: HostRuntime) -> Result<(), Fail> {
    let empty: &[&[u8]] = &[];
    for (bytes, want) in [
        (b"".as_slice(), empty),
        (b"\n", &[b"".as_slice()]),
        (b"a", &[b"a".as_slice()]),
        (b"a\n", &[b"a".as_slice()]),
        (b"a\n\nb", &[b"a".as_slice(), b"", b"b"]),
        (b"a\r\n\r\nb\r", &[b"a".as_slice(), b"", b"b\r"]),
        (b"a\r\r\n\rb\n", &[b"a\r".as_slice(), b"\rb"]),
        (b"\xff\x00\n\xfe", &[b"\xff\x00".as_slice(), b"\xfe"]),
    ] {
        let mut input = bytes;
        let mut line = Vec::from_slice(rt.alloc(), b"before")?;
        for it in want {
            assert!(rt; next_line(&mut input, &mut line)?);
            assert!(rt; line.as_slice() == *it);
        }
        assert!(rt; !next_line(&mut input, &mut line)?);
        assert!(rt; line.is_empty());
    }
    Ok(())
}

/// Gives a byte a read, and fails behind the last.
#[derive(Drop)]
struct Failing<'a>(&'a [u8]);

impl Read for Failing<'_> {
    fn read(&mut self, buf: &mut [u8]) -> io::Result<usize> {
        match (self.0.split_first(), buf.first_mut()) {
            (Some((byte, rest)), Some(to)) => {
                *to = *byte;
                self.0 = rest;
                Ok(1)
            }
            (Some(_), None) => Ok(0),
            (None, _) => Err(io::Error::from(ErrorKind::Unsupported)),
        }
    }
}

#[test]
fn a_failing_input(rt: HostRuntime) -> Result<(), Fail> {
    let mut input = BufReader::new(rt.alloc(), Failing(b"ab\nc"))?;
    let mut line = Vec::new(rt.alloc());
    assert!(rt; next_line(&mut input, &mut line)?);
    assert!(rt; line.as_slice() == b"ab".as_slice());
    match next_line(&mut input, &mut line) {
        Ok(_) => assert!(rt; false),
        Err(error) => assert!(rt; error.kind() == ErrorKind::Unsupported),
    }
    Ok(())
}
