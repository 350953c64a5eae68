//! What expressions made by hand print, as they are and as a const argument.

use crate::generics_tests::{const_param, ident, literal, path, printed, says, shown};
use crate::nothing::Nothing;
use crate::pat_tests::{inner, outer};
use std::alloc::Global;
use syn_mid::{Expr, ExprBlock, ExprConst, ExprLit, ExprMacro, ExprPath, ExprRange, Macro};
use token_core::token::{Brace, Const, DotDot, DotDotEq, Eq};
use token_core::{Boxed, Error, Items, Lit, RangeLimits, read_all};
use token_text::lex;

type Form = Expr<Nothing>;

pub(crate) fn name(alloc: Global, text: &str) -> Result<Form, Error> {
    Ok(Expr::Path(ExprPath {
        attrs: Items::new(alloc),
        path: path(alloc, text)?,
    }))
}

/// `#[b] a`
fn name_with_outer(alloc: Global) -> Result<ExprPath<Nothing>, Error> {
    let attrs = outer(alloc, "#[b]")?;
    let path = path(alloc, "a")?;
    Ok(ExprPath { attrs, path })
}

/// A literal that holds an inner attribute.
fn literal_with_inner(alloc: Global) -> Result<ExprLit<Nothing>, Error> {
    let attrs = inner(alloc, "#![b]")?;
    let lit = read_all::<Lit>(alloc, &lex(alloc, "1")?)?;
    Ok(ExprLit { attrs, lit })
}

pub(crate) fn const_block(alloc: Global) -> Result<ExprConst<Nothing>, Error> {
    Ok(ExprConst {
        attrs: outer(alloc, "#[b]")?,
        const_token: Const::default(),
        brace_token: Brace::default(),
        body: Nothing {},
    })
}

fn block(alloc: Global) -> ExprBlock<Nothing> {
    ExprBlock {
        attrs: Items::new(alloc),
        brace_token: Brace::default(),
        body: Nothing {},
    }
}

pub(crate) fn call(alloc: Global) -> Result<ExprMacro<Nothing>, Error> {
    let attrs = outer(alloc, "#[b]")?;
    let mac = read_all::<Macro>(alloc, &lex(alloc, "a::b!(c)")?)?;
    Ok(ExprMacro { attrs, mac })
}

/// `a ..= 1`
fn closed(alloc: Global) -> Result<ExprRange<Nothing>, Error> {
    let start = Boxed::new(alloc, name(alloc, "a")?)?;
    let end = Boxed::new(alloc, literal(alloc, "1")?)?;
    Ok(ExprRange {
        attrs: Items::new(alloc),
        start: Some(start),
        limits: RangeLimits::Closed(DotDotEq::default()),
        end: Some(end),
    })
}

/// `#[b] ..`
fn open_range(alloc: Global) -> Result<ExprRange<Nothing>, Error> {
    Ok(ExprRange {
        attrs: outer(alloc, "#[b]")?,
        start: None,
        limits: RangeLimits::HalfOpen(DotDot::default()),
        end: None,
    })
}

/// What the default of a const parameter prints.
fn argument(alloc: Global, value: Result<Form, Error>) -> Result<String, Error> {
    let default = Some((Eq::default(), value?));
    printed(alloc, &const_param(alloc, default)?)
}

fn marked_argument(alloc: Global) -> Result<Form, Error> {
    Ok(Expr::Path(name_with_outer(alloc)?))
}

fn range_argument(alloc: Global) -> Result<Form, Error> {
    Ok(Expr::Range(closed(alloc)?))
}

#[test]
fn expressions_print(rt: HostRuntime) {
    let alloc = rt.alloc();
    says(&rt, shown(alloc, name_with_outer(alloc)), "# [b] a");
    says(&rt, shown(alloc, literal_with_inner(alloc)), "1");
    says(&rt, shown(alloc, name(alloc, "::a::b")), ":: a :: b");
    says(&rt, shown(alloc, const_block(alloc)), "# [b] const { }");
    says(&rt, shown(alloc, call(alloc)), "# [b] a :: b ! (c)");
    says(&rt, shown(alloc, closed(alloc)), "a ..= 1");
    says(&rt, shown(alloc, open_range(alloc)), "# [b] ..");
    says(&rt, printed(alloc, &block(alloc)), "{ }");
    says(&rt, shown(alloc, range_argument(alloc)), "a ..= 1");
}

#[test]
fn const_arguments_print(rt: HostRuntime) {
    let alloc = rt.alloc();
    says(
        &rt,
        argument(alloc, literal(alloc, "-1")),
        "const N : usize = - 1",
    );
    says(
        &rt,
        argument(alloc, Ok(Expr::Block(block(alloc)))),
        "const N : usize = { }",
    );
    says(
        &rt,
        argument(alloc, name(alloc, "M")),
        "const N : usize = M",
    );
    says(
        &rt,
        argument(alloc, name(alloc, "::M")),
        "const N : usize = { :: M }",
    );
    says(
        &rt,
        argument(alloc, name(alloc, "a::M")),
        "const N : usize = { a :: M }",
    );
    says(
        &rt,
        argument(alloc, marked_argument(alloc)),
        "const N : usize = { # [b] a }",
    );
    says(
        &rt,
        argument(alloc, range_argument(alloc)),
        "const N : usize = { a ..= 1 }",
    );
    says(
        &rt,
        argument(alloc, Ok(Expr::Other(Nothing {}))),
        "const N : usize = { }",
    );
}
