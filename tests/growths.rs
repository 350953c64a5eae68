//! Large trees made by hand, and what an output holds after the print of one was refused.

use crate::expr_tests::{call, const_block};
use crate::generics_tests::{self, both, ident, lone, pair, path};
use crate::nothing::Nothing;
use crate::object_tests::{and, bound_with_binder, opaque};
use crate::pat_tests::{self, boxed, outer, rest_after, two, two_fields, with_rest};
use crate::qualified_tests::{qself, qualified};
use crate::{argument_tests, fn_ptr_tests};
use std::alloc::Global;
use syn_mid::{
    Expr, ExprRange, NamedArg, NamedArgOf, Pat, Type, TypeFnPtr, TypeGroupOf, TypeParenOf,
    TypeSliceOf, TypeTupleOf,
};
use token_core::token::{As, Bracket, Colon, DotDotEq, GroupToken, Paren};
use token_core::{Boxed, Error, Items, RangeLimits, Span, ToTokens};
use token_text::lex;

/// What came of a print into an output that holds something.
pub(crate) enum Outcome {
    Printed,
    /// It was refused, and the output is as it was.
    Kept,
    /// It was refused, and the output is another one.
    Changed,
}

/// Prints the tree of this name after taking memory so often. It is refused where memory is before the print.
pub(crate) fn outcome(alloc: Global, name: &str, times: usize) -> Result<Outcome, Error> {
    match name {
        "type" => printed(alloc, times, pointer(alloc)),
        "arguments" => printed(alloc, times, argument_tests::whole(alloc)),
        "generics" => printed(alloc, times, generics_tests::whole(alloc)),
        "clause" => printed(alloc, times, generics_tests::clause(alloc)),
        "pattern" => printed(alloc, times, pattern(alloc)),
        "expression" => printed(alloc, times, range(alloc)),
        _ => Err(Error::new(alloc, Span::none(), "no such tree")),
    }
}

fn printed<T: ToTokens + Drop>(
    alloc: Global,
    times: usize,
    tree: Result<T, Error>,
) -> Result<Outcome, Error> {
    let tree = tree?;
    let before = lex(alloc, "a (b)")?;
    let mut out = before.copy(alloc)?;
    take(alloc, times)?;
    match tree.to_tokens(alloc, &mut out) {
        Ok(()) => Ok(Outcome::Printed),
        Err(_) => {
            if out.same(&before) {
                Ok(Outcome::Kept)
            } else {
                Ok(Outcome::Changed)
            }
        }
    }
}

/// Takes memory so often, and gives it back.
pub(crate) fn take(alloc: Global, times: usize) -> Result<(), Error> {
    for _ in 0..times {
        let _one = Boxed::new(alloc, 0)?;
    }
    Ok(())
}

// ---- trees

/// `(impl A + for<'b> A, <Self as A>::Q)`
fn tuple(alloc: Global) -> Result<Type<Nothing>, Error> {
    let first = opaque(alloc, and(alloc, bound_with_binder(alloc)));
    let qself = qself(alloc, 1, Some(As::default()));
    let (first, second) = both(first, qualified(alloc, qself, path(alloc, "A::Q")))?;
    Ok(Type::from(TypeTupleOf {
        attrs: Items::new(alloc),
        paren_token: Paren::default(),
        elems: pair(alloc, first, second)?,
    }))
}

/// `[((impl A + for<'b> A, <Self as A>::Q))]`, with an invisible group in the outer parentheses
fn nested(alloc: Global) -> Result<Type<Nothing>, Error> {
    let group = Type::Group(TypeGroupOf {
        attrs: Items::new(alloc),
        group_token: GroupToken::default(),
        elem: boxed(alloc, tuple(alloc))?,
    });
    let paren = Type::from(TypeParenOf {
        attrs: Items::new(alloc),
        paren_token: Paren::default(),
        elem: Boxed::new(alloc, group)?,
    });
    Ok(Type::from(TypeSliceOf {
        attrs: Items::new(alloc),
        bracket_token: Bracket::default(),
        elem: Boxed::new(alloc, paren)?,
    }))
}

/// `#[b] #[c = 1] x: [..]`
fn argument(alloc: Global) -> Result<NamedArg<Nothing>, Error> {
    let attrs = outer(alloc, "#[b] #[c = 1]");
    let (attrs, (name, ty)) = both(attrs, both(ident(alloc, "x"), nested(alloc)))?;
    Ok(NamedArgOf {
        attrs,
        name: Some((name, Colon::default())),
        ty,
    })
}

/// `for<'a> unsafe extern "C" fn(#[b] #[c = 1] x: [..], ...) -> B`
fn pointer(alloc: Global) -> Result<Type<Nothing>, Error> {
    let pointer = fn_ptr_tests::whole(alloc, lone(alloc, argument(alloc)))?;
    Ok(Type::from(pointer))
}

/// `| [(A { x, 0: _, #[b] .. }, ..), ..] | ref mut a @ _`
fn pattern(alloc: Global) -> Result<Pat<Nothing>, Error> {
    let rest = rest_after(alloc, outer(alloc, "#[b]"));
    let fields = with_rest(alloc, two_fields(alloc), rest);
    let tuple = pat_tests::tuple(alloc, two(alloc, fields));
    let slice = pat_tests::slice(alloc, two(alloc, tuple));
    pat_tests::alternatives(alloc, slice, pat_tests::binding(alloc))
}

/// `#[b] const {} ..= #[b] a::b!(c)`
fn range(alloc: Global) -> Result<ExprRange<Nothing>, Error> {
    let (start, end) = both(const_block(alloc), call(alloc))?;
    Ok(ExprRange {
        attrs: Items::new(alloc),
        start: Some(Boxed::new(alloc, Expr::Const(start))?),
        limits: RangeLimits::Closed(DotDotEq::default()),
        end: Some(Boxed::new(alloc, Expr::Macro(end))?),
    })
}
