//! What a reader answers on the front of a list, and what it leaves.

use crate::verbatim_tests::{printed, says};
use std::alloc::Global;
use std::process::Abort;
use token_core::verbatim::between;
use token_core::{Error, Parse, ParseStream, Span, ToTokens, TokenBuffer};
use token_text::{lex, text_of};

/// The trees that stand at the stream's position and behind it.
fn left(alloc: Global, input: &ParseStream<'_>) -> Result<String, Error> {
    let here = input.cursor();
    let mut end = here.again();
    while let Some((_, after)) = end.tree() {
        end = after;
    }
    let trees = between(alloc, &here, &end)?;
    Ok(text_of(alloc, &trees)?)
}

/// The print of what the reader answers on the front of a text, a `|`, and what it leaves.
pub(crate) fn read_and_left<T: ToTokens + Drop>(
    alloc: Global,
    text: &str,
    read: fn(Global, &mut ParseStream<'_>) -> Result<T, Error>,
) -> Result<String, Error> {
    let tokens = lex(alloc, text)?;
    let buffer = TokenBuffer::new(alloc, &tokens)?;
    let mut input = ParseStream::new(&buffer, Span::none());
    let tree = read(alloc, &mut input)?;
    let mut out = printed(alloc, &tree)?;
    out.push_str(" | ")?;
    out.push_str(left(alloc, &input)?.as_str())?;
    Ok(out)
}

/// The reader answers this on the front of a text, and leaves what stands behind the `|`; of a refusal, its text and place.
pub(crate) fn leaves<T: Parse + ToTokens + Drop>(
    rt: &impl Abort,
    alloc: Global,
    text: &str,
    wanted: &str,
) {
    says(rt, alloc, read_and_left(alloc, text, T::parse), wanted);
}
