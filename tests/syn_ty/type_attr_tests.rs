//! A type holds attributes and prints none of them.

use crate::fn_ptr_tests::whole as pointer;
use crate::generics_tests::{literal, says, shown};
use crate::nothing::Nothing;
use crate::object_tests::{and, bound_with_binder, object, opaque};
use crate::pat_tests::{boxed, inner, outer};
use std::alloc::Global;
use std::process::Abort;
use syn_mid::{Attribute, Type, TypeArray, TypeGroup};
use token_core::token::{Bracket, Dyn, GroupToken, Semi};
use token_core::{Error, Items, Punctuated, read_all};
use token_text::lex;

type Ty = Type<Nothing>;

/// The type with these attributes.
fn with(ty: Ty, attrs: Items<Attribute<Nothing>>) -> Ty {
    match ty {
        Type::Array(mut form) => {
            form.attrs = attrs;
            Type::Array(form)
        }
        Type::FnPtr(mut form) => {
            form.attrs = attrs;
            Type::FnPtr(form)
        }
        Type::Group(mut form) => {
            form.attrs = attrs;
            Type::Group(form)
        }
        Type::ImplTrait(mut form) => {
            form.attrs = attrs;
            Type::ImplTrait(form)
        }
        Type::Infer(mut form) => {
            form.attrs = attrs;
            Type::Infer(form)
        }
        Type::Macro(mut form) => {
            form.attrs = attrs;
            Type::Macro(form)
        }
        Type::Never(mut form) => {
            form.attrs = attrs;
            Type::Never(form)
        }
        Type::Paren(mut form) => {
            form.attrs = attrs;
            Type::Paren(form)
        }
        Type::Path(mut form) => {
            form.attrs = attrs;
            Type::Path(form)
        }
        Type::Ptr(mut form) => {
            form.attrs = attrs;
            Type::Ptr(form)
        }
        Type::Reference(mut form) => {
            form.attrs = attrs;
            Type::Reference(form)
        }
        Type::Slice(mut form) => {
            form.attrs = attrs;
            Type::Slice(form)
        }
        Type::TraitObject(mut form) => {
            form.attrs = attrs;
            Type::TraitObject(form)
        }
        Type::Tuple(mut form) => {
            form.attrs = attrs;
            Type::Tuple(form)
        }
        Type::Verbatim(tokens) => Type::Verbatim(tokens),
    }
}

fn read(alloc: Global, text: &str) -> Result<Ty, Error> {
    read_all::<Ty>(alloc, &lex(alloc, text)?)
}

fn array(alloc: Global) -> Result<Ty, Error> {
    Ok(Type::from(TypeArray {
        attrs: Items::new(alloc),
        bracket_token: Bracket::default(),
        elem: boxed(alloc, read(alloc, "A"))?,
        semi_token: Semi::default(),
        len: literal(alloc, "2")?,
    }))
}

fn group(alloc: Global) -> Result<Ty, Error> {
    Ok(Type::from(TypeGroup {
        attrs: Items::new(alloc),
        group_token: GroupToken::default(),
        elem: boxed(alloc, read(alloc, "A"))?,
    }))
}

fn fn_ptr(alloc: Global) -> Result<Ty, Error> {
    Ok(Type::from(pointer(alloc, Ok(Punctuated::new(alloc)))?))
}

fn some_type(alloc: Global) -> Result<Ty, Error> {
    opaque(alloc, and(alloc, bound_with_binder(alloc)))
}

fn trait_object(alloc: Global) -> Result<Ty, Error> {
    let word = Some(Dyn::default());
    object(alloc, word, and(alloc, bound_with_binder(alloc)))
}

fn attributed(
    alloc: Global,
    ty: Result<Ty, Error>,
    attrs: Result<Items<Attribute<Nothing>>, Error>,
) -> Result<String, Error> {
    shown(alloc, Ok(with(ty?, attrs?)))
}

#[test]
fn a_type_prints_none_of_its_attributes(rt: HostRuntime) {
    let alloc = rt.alloc();
    for (text, wanted) in [
        ("_", "_"),
        ("!", "!"),
        ("(A)", "(A)"),
        ("a::B", "a :: B"),
        ("*const A", "* const A"),
        ("&'a mut A", "& 'a mut A"),
        ("[A]", "[A]"),
        ("(A,)", "(A ,)"),
        ("m!{x}", "m ! { x }"),
    ] {
        says(&rt, shown(alloc, read(alloc, text)), wanted);
        let within = attributed(alloc, read(alloc, text), inner(alloc, "#![b]"));
        says(&rt, within, wanted);
        let before = attributed(alloc, read(alloc, text), outer(alloc, "#[b] #[c]"));
        says(&rt, before, wanted);
    }
}

/// It prints this text, with an outer attribute too.
fn prints(
    rt: &impl Abort,
    alloc: Global,
    plain: Result<Ty, Error>,
    before: Result<Ty, Error>,
    wanted: &str,
) {
    says(rt, shown(alloc, plain), wanted);
    says(rt, attributed(alloc, before, outer(alloc, "#[b]")), wanted);
}

#[test]
fn a_form_made_by_hand_prints_none_of_its_attributes(rt: HostRuntime) {
    let alloc = rt.alloc();
    prints(&rt, alloc, array(alloc), array(alloc), "[A ; 2]");
    prints(&rt, alloc, group(alloc), group(alloc), "\\(A\\)");
    let wanted = "impl A + for < 'b > A";
    prints(&rt, alloc, some_type(alloc), some_type(alloc), wanted);
    let wanted = "dyn A + for < 'b > A";
    prints(&rt, alloc, trait_object(alloc), trait_object(alloc), wanted);
    let wanted = "for < 'a > unsafe extern \"C\" fn (...) -> B";
    prints(&rt, alloc, fn_ptr(alloc), fn_ptr(alloc), wanted);
}
