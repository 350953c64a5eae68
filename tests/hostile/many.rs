//! Reads many token lists, each by the reader named before it, prints what was read, and reads the print again. `checks/hostile` puts it in the
//! place of the program's main file and runs it.
//!
//! A line of the standard input is a reader's name, a tab and a text; after one more tab what is changed in the list of the text (`Changed`), as
//! `3,w0`: the mark whose spacing is turned over, the tree that is put into an invisible group. A letter says what came of a line (`Came`). The
//! argument says what is written of it:
//!
//! - `codes`: the letter, and one character for the time (`code`). Where a line took much longer than those of its length before it, it is
//!   read again some times, and the least time counts: the machine does other things beside.
//! - `times`: the letter, and the least of three times in nanoseconds.
//! - `prints`: the letter, and the text of the print or of the refusal.
#![tactic(auto)]

ghost use Rattle.std.specs.Prelude.{};

use std::alloc::{AllocError, Global};
use std::fmt::Write as _;
use std::io::Write;
use std::process::ExitCode;
use std::time::Instant;
use std::{env, io};
use syn_readers::by_name::GenericsReader;
use syn_run::channel::{Plain, Source};
use syn_run::items::ItemReader;
use syn_run::readers::Reader;
use syn_sample::sample::Sample;
use token_core::{
    DelimSpan, Delimiter, Error, ErrorKind, Group, Punct, Spacing, Span, TokenStream, TokenTree,
};
use token_text::{lex, text_of};

/// What came of a line.
#[derive(Clone, Copy, PartialEq, Eq)]
enum Came {
    /// It is no line as above.
    NoLine,
    UnknownReader,
    /// The lexer refused the text.
    Unlexed,
    OutOfMemory,
    /// The reader refused the list.
    Refused,
    /// It was read and printed; the print was read again to the same print, and so was the text of the print, where the list is that of a text
    /// (a joint mark that no mark follows has none).
    Again,
    /// So it was, but the print is a view, which no reader reads.
    View,
    /// The print was refused.
    PrintRefused,
    /// The print was read to another print.
    PrintDiffers,
    /// The text of the print was refused, or read to another print; the print itself was read again to the same print.
    TextDiffers,
}

impl Came {
    fn letter(self) -> u8 {
        match self {
            Came::NoLine => b'n',
            Came::UnknownReader => b'u',
            Came::Unlexed => b'l',
            Came::OutOfMemory => b'm',
            Came::Refused => b'r',
            Came::Again => b'A',
            Came::View => b'V',
            Came::PrintRefused => b'P',
            Came::PrintDiffers => b'D',
            Came::TextDiffers => b'T',
        }
    }
}

/// What is written of a line.
#[derive(Clone, Copy, PartialEq, Eq)]
enum Shows {
    Codes,
    Times,
    Prints,
}

/// What the lines before took, by the length of their texts.
#[derive(Drop)]
struct Usual {
    times: [u64; LENGTHS],
}

const LENGTHS: usize = 64;

/// Bytes of the texts that count as of one length.
const ALIKE: usize = 8;

impl Usual {
    fn place(text: &str) -> usize {
        (text.len() / ALIKE).min(LENGTHS - 1)
    }

    fn is_slow(&self, text: &str, time: u64) -> bool {
        let usual = self.times[Usual::place(text)];
        usual > 0 && time / 4 > usual
    }

    fn takes(&mut self, text: &str, time: u64) {
        let usual = &mut self.times[Usual::place(text)];
        if *usual == 0 {
            *usual = time;
        } else if time > *usual {
            *usual = usual.saturating_add(*usual / 16 + 1);
        } else {
            *usual = usual.saturating_sub(*usual / 16);
        }
    }
}

fn main(rt: HostRuntime) -> ExitCode {
    match all(&rt) {
        Ok(()) => ExitCode::from(0),
        Err(_) => ExitCode::from(1),
    }
}

fn all(rt: &HostRuntime) -> Result<(), Error> {
    let alloc = rt.alloc();
    let Some(shows) = shows(rt) else {
        return Err(Error::out_of_memory());
    };
    let Ok(bytes) = Plain(rt.reader()).read_all(alloc) else {
        return Err(Error::out_of_memory());
    };
    let Ok(input) = str::from_utf8(&bytes) else {
        return Err(Error::out_of_memory());
    };
    let mut out = Vec::new(alloc);
    let mut usual = Usual {
        times: [0; LENGTHS],
    };
    for line in input.split('\n') {
        if !line.is_empty() {
            one(rt, shows, line, &mut usual, &mut out)?;
        }
    }
    match io::writer(rt).write_all(&out) {
        Ok(()) => Ok(()),
        Err(_) => Err(Error::out_of_memory()),
    }
}

fn shows(rt: &HostRuntime) -> Option<Shows> {
    let Ok(mut words) = env::args(rt) else {
        return None;
    };
    let _program = words.next();
    match words.next()?.as_str() {
        "codes" => Some(Shows::Codes),
        "times" => Some(Shows::Times),
        "prints" => Some(Shows::Prints),
        _ => None,
    }
}

/// A line with its parts.
#[derive(Clone, Copy)]
struct Line<'a> {
    reader: Option<Reader>,
    text: &'a str,
    changes: &'a str,
}

fn parts(line: &str) -> Option<Line<'_>> {
    let (name, rest) = line.split_once('\t')?;
    let (text, changes) = rest.split_once('\t').unwrap_or((rest, ""));
    Some(Line {
        reader: Reader::named(name),
        text,
        changes,
    })
}

fn one(
    rt: &HostRuntime,
    shows: Shows,
    line: &str,
    usual: &mut Usual,
    out: &mut Vec<u8>,
) -> Result<(), Error> {
    let alloc = rt.alloc();
    let Some(line) = parts(line) else {
        return Ok(put(alloc, shows, Came::NoLine, 0, "", out)?);
    };
    let Some(reader) = line.reader else {
        return Ok(put(alloc, shows, Came::UnknownReader, 0, "", out)?);
    };
    let tokens = match listed(alloc, line) {
        Ok(tokens) => tokens,
        Err(error) => return Ok(put(alloc, shows, Came::Unlexed, 0, error.text(), out)?),
    };
    let (answer, mut time) = timed(rt, reader, &tokens);
    let more = match shows {
        Shows::Codes => usual.is_slow(line.text, time) as usize * 6,
        Shows::Times => 2,
        Shows::Prints => 0,
    };
    for _ in 0..more {
        let (_, again) = timed(rt, reader, &tokens);
        time = time.min(again);
    }
    usual.takes(line.text, time);
    match answer {
        Err(error) => {
            let came = match error.kind() {
                ErrorKind::OutOfMemory => Came::OutOfMemory,
                _ => Came::Refused,
            };
            Ok(put(alloc, shows, came, time, error.text(), out)?)
        }
        Ok(print) => {
            let text = text_of(alloc, &print)?;
            let came = read_again(
                alloc,
                reader,
                &print,
                text.as_str(),
                line.changes.is_empty(),
            );
            Ok(put(alloc, shows, came, time, text.as_str(), out)?)
        }
    }
}

/// The reader of a print: a where clause without predicates prints nothing, which is read as an optional one, and what an
/// implementation prints of generics is read as generics.
fn by(reader: Reader) -> Reader {
    match reader {
        Reader::Generics(GenericsReader::WhereClause) => {
            Reader::Generics(GenericsReader::OptionalWhereClause)
        }
        Reader::Generics(GenericsReader::ImplGenerics) => {
            Reader::Generics(GenericsReader::Declared)
        }
        _ => reader,
    }
}

/// What comes of a print that is read again.
fn read_again(
    alloc: Global,
    reader: Reader,
    print: &TokenStream,
    text: &str,
    is_of_text: bool,
) -> Came {
    if is_view(reader) {
        return Came::View;
    }
    let reader = by(reader);
    let Ok(list) = print.copy(alloc) else {
        return Came::OutOfMemory;
    };
    match reader.reprint::<Sample>(alloc, Span::none(), list) {
        Ok(again) => {
            if !again.same(print) {
                return Came::PrintDiffers;
            }
        }
        Err(_) => return Came::PrintRefused,
    }
    if !is_of_text {
        return Came::Again;
    }
    let Ok(tokens) = lex(alloc, text) else {
        return Came::TextDiffers;
    };
    let Ok(again) = reader.reprint::<Sample>(alloc, Span::none(), tokens) else {
        return Came::TextDiffers;
    };
    match text_of(alloc, &again) {
        Ok(found) => {
            if found.as_str() == text {
                Came::Again
            } else {
                Came::TextDiffers
            }
        }
        Err(_) => Came::OutOfMemory,
    }
}

/// Whether it prints names alone.
fn is_view(reader: Reader) -> bool {
    match reader {
        Reader::Generics(GenericsReader::TypeGenerics) => true,
        Reader::Generics(GenericsReader::Turbofish) => true,
        Reader::Items(ItemReader::Head) => true,
        _ => false,
    }
}

/// Reads and prints, and says how many nanoseconds that took; 0 where the clock gives none.
fn timed(
    rt: &HostRuntime,
    reader: Reader,
    tokens: &TokenStream,
) -> (Result<TokenStream, Error>, u64) {
    let alloc = rt.alloc();
    let Ok(list) = tokens.copy(alloc) else {
        return (Err(Error::out_of_memory()), 0);
    };
    let begin = Instant::now(rt);
    let answer = reader.reprint::<Sample>(alloc, Span::none(), list);
    let time = match begin {
        Ok(begin) => match begin.elapsed(rt) {
            Ok(time) => time.as_nanos() as u64,
            Err(_) => 0,
        },
        Err(_) => 0,
    };
    (answer, time)
}

/// One printable character for a time: four of them for a doubling, from 128 nanoseconds.
fn code(time: u64) -> u8 {
    let time = time.max(128);
    let power = 63 - time.leading_zeros();
    let quarter = (time >> (power - 2)) & 3;
    let steps = (power as u64 - 7) * 4 + quarter;
    b'!' + steps.min(93) as u8
}

fn put(
    alloc: Global,
    shows: Shows,
    came: Came,
    time: u64,
    text: &str,
    out: &mut Vec<u8>,
) -> Result<(), AllocError> {
    out.push(came.letter())?;
    match shows {
        Shows::Codes => out.push(code(time))?,
        Shows::Times => {
            let mut digits = String::new(alloc);
            write!(digits, "{time}\n")?;
            out.extend_from_slice(digits.as_bytes())?;
        }
        Shows::Prints => {
            out.extend_from_slice(text.as_bytes())?;
            out.push(b'\n')?;
        }
    }
    Ok(())
}

// ---- lists

/// The list of a line.
fn listed(alloc: Global, line: Line<'_>) -> Result<TokenStream, Error> {
    let tokens = lex(alloc, line.text)?;
    if line.changes.is_empty() {
        return Ok(tokens);
    }
    Ok(changed(alloc, line.changes, &tokens)?)
}

fn changed(alloc: Global, changes: &str, tokens: &TokenStream) -> Result<TokenStream, AllocError> {
    let mut changed = Changed {
        turned: Vec::new(alloc),
        marks: 0,
        wrapped: Vec::new(alloc),
        trees: 0,
    };
    for word in changes.split(',') {
        match word.strip_prefix('w') {
            Some(number) => changed
                .wrapped
                .push(number.parse::<usize>().unwrap_or(usize::MAX))?,
            None => changed
                .turned
                .push(word.parse::<usize>().unwrap_or(usize::MAX))?,
        }
    }
    changed.list(alloc, tokens)
}

/// What is changed in a list: the numbers of the marks whose spacing is turned over, and of the trees that are put into an invisible group, in
/// the order of the text, a group before what it holds; and how many of both were seen.
#[derive(Drop)]
struct Changed {
    turned: Vec<usize>,
    marks: usize,
    wrapped: Vec<usize>,
    trees: usize,
}

impl Changed {
    fn list(&mut self, alloc: Global, tokens: &TokenStream) -> Result<TokenStream, AllocError> {
        let mut out = TokenStream::new(alloc);
        for tree in tokens.trees() {
            let number = self.trees;
            self.trees = number.saturating_add(1);
            let tree = self.tree(alloc, tree)?;
            if self.wrapped.contains(&number) {
                let mut content = TokenStream::new(alloc);
                content.push(tree)?;
                let place = DelimSpan::new(Span::none(), Span::none());
                out.push(TokenTree::Group(Group::new(Delimiter::None, content, place)))?;
            } else {
                out.push(tree)?;
            }
        }
        Ok(out)
    }

    fn tree(&mut self, alloc: Global, tree: &TokenTree) -> Result<TokenTree, AllocError> {
        match tree {
            TokenTree::Punct(mark) => {
                let number = self.marks;
                self.marks = number.saturating_add(1);
                let mut spacing = mark.spacing;
                if self.turned.contains(&number) {
                    spacing = match spacing {
                        Spacing::Joint => Spacing::Alone,
                        Spacing::Alone => Spacing::Joint,
                    };
                }
                Ok(TokenTree::Punct(Punct::new(mark.ch, spacing, mark.span)))
            }
            TokenTree::Group(group) => {
                let content = self.list(alloc, group.stream())?;
                Ok(TokenTree::Group(Group::new(group.delimiter(), content, group.delim_span())))
            }
            _ => tree.copy(alloc),
        }
    }
}
