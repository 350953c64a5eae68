//! What conventions, outputs and types in invisible groups made by hand print.

use crate::generics_tests::{printed, says};
use crate::nothing::Nothing;
use std::alloc::Global;
use syn_mid::{Abi, ReturnType, ReturnTypeOf, Type, TypeGroupOf, TypeNever};
use token_core::token::{Extern, GroupToken, Not, RArrow};
use token_core::{Boxed, Error, Items, LitStr, Span};

/// `!`
fn never(alloc: Global) -> Type<Nothing> {
    Type::Never(TypeNever {
        attrs: Items::new(alloc),
        bang_token: Not::default(),
    })
}

/// A type in as many invisible groups.
fn grouped(alloc: Global, groups: u8) -> Result<Type<Nothing>, Error> {
    let mut ty = never(alloc);
    for _ in 0..groups {
        ty = Type::Group(TypeGroupOf {
            attrs: Items::new(alloc),
            group_token: GroupToken::default(),
            elem: Boxed::new(alloc, ty)?,
        });
    }
    Ok(ty)
}

fn group_prints(alloc: Global, groups: u8) -> Result<String, Error> {
    let ty = grouped(alloc, groups)?;
    printed(alloc, &ty)
}

#[test]
fn prints_types_in_invisible_groups(rt: HostRuntime) {
    let alloc = rt.alloc();
    says(&rt, group_prints(alloc, 0), "!");
    says(&rt, group_prints(alloc, 1), "\\(!\\)");
    says(&rt, group_prints(alloc, 2), "\\(\\(!\\)\\)");
}

fn output(alloc: Global) -> Result<String, Error> {
    let output: ReturnType<Nothing> = ReturnTypeOf::Type(
        RArrow::default(),
        Boxed::new(alloc, never(alloc))?,
    );
    printed(alloc, &output)
}

fn no_output(alloc: Global) -> Result<String, Error> {
    let output: ReturnType<Nothing> = ReturnTypeOf::Default;
    printed(alloc, &output)
}

#[test]
fn prints_what_is_returned(rt: HostRuntime) {
    let alloc = rt.alloc();
    says(&rt, output(alloc), "-> !");
    says(&rt, no_output(alloc), "");
}

fn named(alloc: Global, text: &str) -> Result<String, Error> {
    let abi = Abi {
        extern_token: Extern::default(),
        name: Some(LitStr::new(alloc, text, Span::none())?),
    };
    printed(alloc, &abi)
}

fn nameless(alloc: Global) -> Result<String, Error> {
    let abi = Abi {
        extern_token: Extern::default(),
        name: None,
    };
    printed(alloc, &abi)
}

#[test]
fn prints_conventions(rt: HostRuntime) {
    let alloc = rt.alloc();
    says(&rt, named(alloc, "\"C\""), "extern \"C\"");
    says(&rt, nameless(alloc), "extern");
}
