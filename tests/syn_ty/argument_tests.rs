//! What the arguments of paths made by hand print.

use crate::expr_tests::name;
use crate::generics_tests::{
    both, holds, ident, lifetime, lifetime_bound, literal, lone, pair, says, shown, ty,
};
use crate::nothing::Nothing;
use crate::pat_tests::boxed;
use std::alloc::Global;
use syn_mid::{
    AngleBracketedGenericArguments, AssocConst, AssocType, Constraint, Expr, GenericArgument,
    NamedArgOf, ParenthesizedGenericArguments, Path, PathArguments, PathSegmentOf, ReturnTypeOf,
    Type, TypeParamBound, TypePathOf,
};
use token_core::token::{Colon, Eq, Gt, Lt, Paren, PathSep, Plus, RArrow};
use token_core::{Error, Items, Punctuated};

type Argument = GenericArgument<Nothing>;

type Arguments = PathArguments<Nothing>;

fn of_type(alloc: Global, text: &str) -> Result<Argument, Error> {
    Ok(GenericArgument::Type(ty(alloc, text)?))
}

fn of_a_type(ty: Result<Type<Nothing>, Error>) -> Result<Argument, Error> {
    Ok(GenericArgument::Type(ty?))
}

fn of_lifetime(alloc: Global, text: &str) -> Result<Argument, Error> {
    Ok(GenericArgument::Lifetime(lifetime(alloc, text)?))
}

fn of_literal(alloc: Global, text: &str) -> Result<Argument, Error> {
    Ok(GenericArgument::Const(literal(alloc, text)?))
}

fn item(alloc: Global) -> Result<Argument, Error> {
    let (ident, ty) = both(ident(alloc, "Item"), ty(alloc, "B"))?;
    Ok(GenericArgument::AssocType(AssocType {
        ident,
        generics: None,
        eq_token: Eq::default(),
        ty,
    }))
}

fn angled(
    alloc: Global,
    first: Result<Argument, Error>,
    second: Result<Argument, Error>,
) -> Result<Arguments, Error> {
    let (first, second) = both(first, second)?;
    Ok(PathArguments::AngleBracketed(AngleBracketedGenericArguments {
        colon2_token: None,
        lt_token: Lt::default(),
        args: pair(alloc, first, second)?,
        gt_token: Gt::default(),
    }))
}

fn parenthesized(alloc: Global) -> Result<Arguments, Error> {
    let input = ty(alloc, "B").map(|ty| NamedArgOf {
        attrs: Items::new(alloc),
        name: None,
        ty,
    });
    let (inputs, output) = both(lone(alloc, input), boxed(alloc, ty(alloc, "C")))?;
    Ok(PathArguments::Parenthesized(ParenthesizedGenericArguments {
        paren_token: Paren::default(),
        inputs,
        output: ReturnTypeOf::Type(RArrow::default(), output),
    }))
}

/// `A` with these arguments, as a type
fn with(alloc: Global, arguments: Result<Arguments, Error>) -> Result<Type<Nothing>, Error> {
    let (ident, arguments) = both(ident(alloc, "A"), arguments)?;
    let path: Path<Nothing> = Path::from_segment(alloc, PathSegmentOf { ident, arguments })?;
    Ok(Type::Path(TypePathOf {
        attrs: Items::new(alloc),
        qself: None,
        path,
    }))
}

#[test]
fn arguments_print_lifetimes_first(rt: HostRuntime) {
    let alloc = rt.alloc();
    let in_order = angled(alloc, of_lifetime(alloc, "a"), of_type(alloc, "B"));
    says(&rt, shown(alloc, with(alloc, in_order)), "A < 'a , B >");
    let sorted = angled(alloc, of_type(alloc, "B"), of_lifetime(alloc, "a"));
    says(&rt, shown(alloc, with(alloc, sorted)), "A < 'a , B , >");
    let others = angled(alloc, of_literal(alloc, "1"), item(alloc));
    says(&rt, shown(alloc, with(alloc, others)), "A < 1 , Item = B >");
}

#[test]
fn arguments_in_parentheses_print_their_output(rt: HostRuntime) {
    let alloc = rt.alloc();
    says(
        &rt,
        shown(alloc, with(alloc, parenthesized(alloc))),
        "A (B) -> C",
    );
}

/// `<'a>`, after `::` if so wanted
fn of_one(
    alloc: Global,
    colon: Option<PathSep>,
) -> Result<AngleBracketedGenericArguments<Nothing>, Error> {
    Ok(AngleBracketedGenericArguments {
        colon2_token: colon,
        lt_token: Lt::default(),
        args: lone(alloc, of_lifetime(alloc, "a"))?,
        gt_token: Gt::default(),
    })
}

/// `N = ..`
fn assoc_const(
    alloc: Global,
    value: Result<Expr<Nothing>, Error>,
) -> Result<AssocConst<Nothing>, Error> {
    let (ident, value) = both(ident(alloc, "N"), value)?;
    Ok(AssocConst {
        ident,
        generics: None,
        eq_token: Eq::default(),
        value,
    })
}

/// `Item<'a> = B`
fn assoc_type(alloc: Global) -> Result<AssocType<Nothing>, Error> {
    let (ident, ty) = both(ident(alloc, "Item"), ty(alloc, "B"))?;
    Ok(AssocType {
        ident,
        generics: Some(of_one(alloc, None)?),
        eq_token: Eq::default(),
        ty,
    })
}

/// `Item: ..`
fn constraint(
    alloc: Global,
    bounds: Result<Punctuated<TypeParamBound<Nothing>, Plus>, Error>,
) -> Result<Constraint<Nothing>, Error> {
    let (ident, bounds) = both(ident(alloc, "Item"), bounds)?;
    Ok(Constraint {
        ident,
        generics: None,
        colon_token: Colon::default(),
        bounds,
    })
}

fn of_value(value: Result<Expr<Nothing>, Error>) -> Result<Argument, Error> {
    Ok(GenericArgument::Const(value?))
}

fn of_const(assoc: Result<AssocConst<Nothing>, Error>) -> Result<Argument, Error> {
    Ok(GenericArgument::AssocConst(assoc?))
}

fn of_constraint(of: Result<Constraint<Nothing>, Error>) -> Result<Argument, Error> {
    Ok(GenericArgument::Constraint(of?))
}

#[test]
fn arguments_print_as_they_stand(rt: HostRuntime) {
    let alloc = rt.alloc();
    says(&rt, shown(alloc, of_one(alloc, None)), "< 'a >");
    let colon = Some(PathSep::default());
    says(&rt, shown(alloc, of_one(alloc, colon)), ":: < 'a >");
}

#[test]
fn const_arguments_of_paths_print_in_braces(rt: HostRuntime) {
    let alloc = rt.alloc();
    says(&rt, shown(alloc, of_value(literal(alloc, "1"))), "1");
    says(&rt, shown(alloc, of_value(name(alloc, "n"))), "n");
    let path = of_value(name(alloc, "a::n"));
    says(&rt, shown(alloc, path), "{ a :: n }");
}

#[test]
fn associated_items_print(rt: HostRuntime) {
    let alloc = rt.alloc();
    let lone = assoc_const(alloc, literal(alloc, "1"));
    says(&rt, shown(alloc, of_const(lone)), "N = 1");
    let path = assoc_const(alloc, name(alloc, "a::n"));
    says(&rt, shown(alloc, path), "N = { a :: n }");
    says(&rt, shown(alloc, assoc_type(alloc)), "Item < 'a > = B");
}

/// `A<A(B) -> C, A<Item: 'a, N = { a::n }>>`
pub(crate) fn whole(alloc: Global) -> Result<Type<Nothing>, Error> {
    let bounds = lone(alloc, lifetime_bound(alloc));
    let of = of_constraint(constraint(alloc, bounds));
    let number = of_const(assoc_const(alloc, name(alloc, "a::n")));
    let inner = with(alloc, angled(alloc, of, number));
    let first = of_a_type(with(alloc, parenthesized(alloc)));
    with(alloc, angled(alloc, first, of_a_type(inner)))
}

#[test]
fn arguments_in_arguments_print(rt: HostRuntime) {
    let alloc = rt.alloc();
    let wanted = "A < A (B) -> C , A < Item : 'a , N = { a :: n } > >";
    says(&rt, shown(alloc, whole(alloc)), wanted);
}

#[test]
fn constraints_keep_their_colon(rt: HostRuntime) {
    let alloc = rt.alloc();
    let bounds = lone(alloc, lifetime_bound(alloc));
    says(&rt, shown(alloc, constraint(alloc, bounds)), "Item : 'a");
    let none = constraint(alloc, Ok(Punctuated::new(alloc)));
    says(&rt, shown(alloc, of_constraint(none)), "Item :");
}

/// Whether no argument is there, and whether there are none.
fn is_empty(arguments: Result<Arguments, Error>, wanted: (bool, bool)) -> Result<bool, Error> {
    let arguments = arguments?;
    Ok(arguments.is_empty() == wanted.0 && arguments.is_none() == wanted.1)
}

fn angle(made: Result<AngleBracketedGenericArguments<Nothing>, Error>) -> Result<Arguments, Error> {
    Ok(PathArguments::AngleBracketed(made?))
}

fn angled_without(alloc: Global) -> Result<AngleBracketedGenericArguments<Nothing>, Error> {
    Ok(AngleBracketedGenericArguments {
        colon2_token: None,
        lt_token: Lt::default(),
        args: Punctuated::new(alloc),
        gt_token: Gt::default(),
    })
}

#[test]
fn arguments_are_empty(rt: HostRuntime) {
    let alloc = rt.alloc();
    holds(&rt, is_empty(Ok(PathArguments::default()), (true, true)));
    holds(&rt, is_empty(angle(angled_without(alloc)), (true, false)));
    holds(&rt, is_empty(angle(of_one(alloc, None)), (false, false)));
    holds(&rt, is_empty(parenthesized(alloc), (false, false)));
}
