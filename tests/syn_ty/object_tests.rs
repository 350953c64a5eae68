//! What trait objects and `impl` types made by hand print.

use crate::generics_tests::{binder, both, lifetime_bound, lone, path, says, shown, two};
use crate::nothing::Nothing;
use std::alloc::Global;
use syn_mid::{
    TraitBoundModifiers, TraitBoundOf, Type, TypeImplTraitOf, TypeParamBound, TypeTraitObjectOf,
};
use token_core::token::{Dyn, Impl, Plus};
use token_core::{Error, Items, Punctuated};

type Bound = TypeParamBound<Nothing>;

type Bounds = Punctuated<Bound, Plus>;

/// `A`
fn bound(alloc: Global, text: &str) -> Result<Bound, Error> {
    Ok(TypeParamBound::from(TraitBoundOf {
        paren_token: None,
        lifetimes: None,
        modifiers: TraitBoundModifiers::default(),
        maybe: None,
        path: path(alloc, text)?,
    }))
}

/// `for<'b> A`
pub(crate) fn bound_with_binder(alloc: Global) -> Result<Bound, Error> {
    let (binder, path) = both(binder(alloc, "b"), path(alloc, "A"))?;
    Ok(TypeParamBound::from(TraitBoundOf {
        paren_token: None,
        lifetimes: Some(binder),
        modifiers: TraitBoundModifiers::default(),
        maybe: None,
        path,
    }))
}

/// `A + ..`
pub(crate) fn and(alloc: Global, second: Result<Bound, Error>) -> Result<Bounds, Error> {
    let (first, second) = both(bound(alloc, "A"), second)?;
    two(alloc, first, second)
}

/// A list of one, with its mark.
fn trailing(alloc: Global, bound: Result<Bound, Error>) -> Result<Bounds, Error> {
    let bound = bound?;
    let mut list = Punctuated::new(alloc);
    list.push_value(bound)?;
    list.push_punct(Plus::default())?;
    Ok(list)
}

pub(crate) fn opaque(alloc: Global, bounds: Result<Bounds, Error>) -> Result<Type<Nothing>, Error> {
    Ok(Type::from(TypeImplTraitOf {
        attrs: Items::new(alloc),
        impl_token: Impl::default(),
        bounds: bounds?,
    }))
}

pub(crate) fn object(
    alloc: Global,
    dyn_token: Option<Dyn>,
    bounds: Result<Bounds, Error>,
) -> Result<Type<Nothing>, Error> {
    Ok(Type::from(TypeTraitObjectOf {
        attrs: Items::new(alloc),
        dyn_token,
        bounds: bounds?,
    }))
}

#[test]
fn opaque_types_print(rt: HostRuntime) {
    let alloc = rt.alloc();
    let one = lone(alloc, bound(alloc, "a::B"));
    says(&rt, shown(alloc, opaque(alloc, one)), "impl a :: B");
    let some = and(alloc, lifetime_bound(alloc));
    says(&rt, shown(alloc, opaque(alloc, some)), "impl A + 'a");
    let marked = trailing(alloc, bound(alloc, "A"));
    says(&rt, shown(alloc, opaque(alloc, marked)), "impl A +");
    let none = Ok(Punctuated::new(alloc));
    says(&rt, shown(alloc, opaque(alloc, none)), "impl");
}

#[test]
fn trait_objects_print(rt: HostRuntime) {
    let alloc = rt.alloc();
    let word = Some(Dyn::default());
    let one = lone(alloc, bound(alloc, "A"));
    says(&rt, shown(alloc, object(alloc, word, one)), "dyn A");
    let bound = lone(alloc, bound_with_binder(alloc));
    says(
        &rt,
        shown(alloc, object(alloc, word, bound)),
        "dyn for < 'b > A",
    );
    let marked = trailing(alloc, bound_with_binder(alloc));
    says(
        &rt,
        shown(alloc, object(alloc, word, marked)),
        "dyn for < 'b > A +",
    );
}

#[test]
fn trait_objects_without_their_word_print(rt: HostRuntime) {
    let alloc = rt.alloc();
    let some = and(alloc, bound(alloc, "B"));
    says(&rt, shown(alloc, object(alloc, None, some)), "A + B");
    let marked = trailing(alloc, bound(alloc, "A"));
    says(&rt, shown(alloc, object(alloc, None, marked)), "A +");
    let none = Ok(Punctuated::new(alloc));
    says(&rt, shown(alloc, object(alloc, None, none)), "");
}
