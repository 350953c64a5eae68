//! Prints the tree that the argument names, or makes the calls that it names, after taking memory once for each byte of the standard input.
//! `checks/tests` runs it with a call for memory refused. Its status says what came of it.
#![tactic(auto)]

mod argument_tests;
mod calls;
mod expr_tests;
mod fn_ptr_tests;
mod generics_tests;
mod growths;
mod nothing;
mod object_tests;
mod pat_tests;
mod qualified_tests;

use growths::Outcome;
use std::alloc::Global;
use std::env;
use std::io::Read;
use std::process::ExitCode;
use token_core::{Error, Span};

/// The most bytes of the standard input.
const MOST: usize = 4096;

fn main(rt: HostRuntime) -> ExitCode {
    ExitCode::from(match came_of(&rt) {
        Ok(Outcome::Printed) => 0,
        Ok(Outcome::Kept) => 1,
        Ok(Outcome::Changed) => 2,
        // before the print
        Err(_) => 3,
    })
}

fn came_of(rt: &HostRuntime) -> Result<Outcome, Error> {
    let mut room = [0; MOST];
    let times = match rt.reader().read(&mut room) {
        Ok(count) => count,
        Err(_) => return Err(Error::new(rt.alloc(), Span::none(), "no input")),
    };
    match env::args(rt) {
        Ok(mut words) => {
            let _program = words.next();
            match words.next() {
                Some(name) => named(rt.alloc(), name.as_str(), times),
                None => Err(Error::new(rt.alloc(), Span::none(), "no name")),
            }
        }
        Err(_) => Err(Error::new(rt.alloc(), Span::none(), "no arguments")),
    }
}

fn named(alloc: Global, name: &str, times: usize) -> Result<Outcome, Error> {
    match name.strip_prefix("calls-") {
        Some(calls) => calls::outcome(alloc, calls, times),
        None => growths::outcome(alloc, name, times),
    }
}
