//! What the tests of the program show of an answer.

use std::alloc::Global;
use std::fmt::Write;
use std::process::Abort;
use token_core::Error;

/// What was answered, or the refusal's text and place.
fn told(alloc: Global, answer: Result<String, Error>) -> Result<String, Error> {
    let mut out = String::new(alloc);
    match answer {
        Ok(text) => out.push_str(text.as_str())?,
        Err(error) => {
            let (start, end) = (error.start(), error.end());
            write!(
                out,
                "{} {}-{} {}-{}",
                error.text(),
                start.lo,
                start.hi,
                end.lo,
                end.hi
            )?;
        }
    }
    Ok(out)
}

/// It answers this; of a refusal, its text and place.
pub(crate) fn says(rt: &impl Abort, alloc: Global, answer: Result<String, Error>, wanted: &str) {
    match told(alloc, answer) {
        Ok(text) => assert_eq!(rt; text.trim(), wanted),
        Err(_) => panic!(rt; "out of memory"),
    }
}
