//! The worked example of docs/EXAMPLES.md: the options of a field.

use crate::options::{Options, options};
use crate::string_tests::told;
use std::alloc::{AllocError, Global};
use std::fmt::Write;
use std::process::Abort;
use token_core::Error;

fn shown(alloc: Global, options: &Options) -> Result<String, AllocError> {
    let mut out = String::new(alloc);
    if let Some(name) = &options.rename {
        write!(out, "rename {}; ", name.as_str())?;
    }
    if let Some(path) = &options.with {
        write!(out, "with {} segments; ", path.segments.len())?;
    }
    if options.skip {
        out.push_str("skip;")?;
    }
    Ok(out)
}

fn options_of(alloc: Global, text: &str) -> Result<String, Error> {
    Ok(shown(alloc, &options(alloc, text)?)?)
}

fn gives(rt: &impl Abort, alloc: Global, text: &str, wanted: &str) {
    match told(alloc, options_of(alloc, text)) {
        Ok(found) => assert_eq!(rt; found.trim(), wanted),
        Err(_) => panic!(rt; "out of memory"),
    }
}

#[test]
fn options_of_a_field(rt: HostRuntime) {
    let alloc = rt.alloc();
    for (text, wanted) in [
        (
            "#[field(rename = \"the \\\"name\\\"\", skip)]",
            "rename the \"name\"; skip;",
        ),
        (
            "#[field(with = \"a::b::<C>\")] #[doc = \"x\"] #[field(skip)]",
            "with 2 segments; skip;",
        ),
        ("#[field(skip, hide)]", "unknown option 14-18"),
        ("#[field(skip, skip)]", "option given twice 14-18"),
        (
            "#[field(rename = \"a\")] #[field(rename = \"b\")]",
            "option given twice 31-37",
        ),
        ("#[field(rename = a)]", "expected string literal 17-18"),
        ("#[field(rename = \"a\\q\")]", "unknown escape 19-21"),
        (
            "#[field(with = \"a::\")]",
            "unexpected end of input, expected identifier 19-20",
        ),
        ("#[field(with = \"a b\")]", "unexpected token 18-19"),
        (
            "#[field]",
            "expected attribute arguments in parentheses: #[field(...)] 2-7",
        ),
    ] {
        gives(&rt, alloc, text, wanted);
    }
}
