//! What plain types made by hand print.

use crate::generics_tests::{says, shown};
use crate::nothing::Nothing;
use std::alloc::Global;
use std::fmt::Write;
use syn_mid::{
    Expr, ExprLit, Macro, ModStyle, ParseOuter, PathArguments, PointerMutability, Type, TypeArray,
    TypeInfer, TypeMacro, TypeNever, TypeParen, TypePathOf, TypePtr, TypeReference, TypeSlice,
    TypeTuple,
};
use token_core::token::{And, Bracket, Comma, Const, Mut, Not, Paren, Semi, Star, Underscore};
use token_core::{
    Boxed, Error, Ident, Items, Lifetime, Lit, Punctuated, Span, read_all, read_all_with,
};
use token_text::lex;

type Ty = Type<Nothing>;

fn path(alloc: Global, text: &str) -> Result<Ty, Error> {
    let tokens = lex(alloc, text)?;
    let path = read_all_with(alloc, ModStyle::<PathArguments<Nothing>>::new(), &tokens)?;
    Ok(Type::from(TypePathOf {
        attrs: Items::new(alloc),
        qself: None,
        path,
    }))
}

fn call(alloc: Global, text: &str) -> Result<Ty, Error> {
    let tokens = lex(alloc, text)?;
    let mac = read_all::<Macro>(alloc, &tokens)?;
    Ok(Type::from(TypeMacro {
        attrs: Items::new(alloc),
        mac,
    }))
}

/// `_`
fn infer(alloc: Global) -> Ty {
    Type::from(TypeInfer {
        attrs: Items::new(alloc),
        underscore_token: Underscore::default(),
    })
}

/// `!`
fn never(alloc: Global) -> Ty {
    Type::from(TypeNever {
        attrs: Items::new(alloc),
        bang_token: Not::default(),
    })
}

fn paren(alloc: Global, elem: Ty) -> Result<Ty, Error> {
    Ok(Type::from(TypeParen {
        attrs: Items::new(alloc),
        paren_token: Paren::default(),
        elem: Boxed::new(alloc, elem)?,
    }))
}

fn slice(alloc: Global, elem: Ty) -> Result<Ty, Error> {
    Ok(Type::from(TypeSlice {
        attrs: Items::new(alloc),
        bracket_token: Bracket::default(),
        elem: Boxed::new(alloc, elem)?,
    }))
}

fn array(alloc: Global, elem: Ty, len: Expr<Nothing>) -> Result<Ty, Error> {
    Ok(Type::from(TypeArray {
        attrs: Items::new(alloc),
        bracket_token: Bracket::default(),
        elem: Boxed::new(alloc, elem)?,
        semi_token: Semi::default(),
        len,
    }))
}

fn pointer(alloc: Global, mutability: PointerMutability, elem: Ty) -> Result<Ty, Error> {
    Ok(Type::from(TypePtr {
        attrs: Items::new(alloc),
        star_token: Star::default(),
        mutability,
        elem: Boxed::new(alloc, elem)?,
    }))
}

fn reference(
    alloc: Global,
    lifetime: Option<Lifetime>,
    mutability: Option<Mut>,
    elem: Ty,
) -> Result<Ty, Error> {
    Ok(Type::from(TypeReference {
        attrs: Items::new(alloc),
        and_token: And::default(),
        lifetime,
        mutability,
        elem: Boxed::new(alloc, elem)?,
    }))
}

fn tuple(alloc: Global, elems: Punctuated<Ty, Comma>) -> Ty {
    Type::from(TypeTuple {
        attrs: Items::new(alloc),
        paren_token: Paren::default(),
        elems,
    })
}

fn lifetime(alloc: Global) -> Result<Lifetime, Error> {
    Ok(Lifetime::new(Span::none(), Ident::new(alloc, "a", Span::none())?))
}

/// The tokens of a text, held as they are.
fn verbatim(alloc: Global, text: &str) -> Result<Ty, Error> {
    Ok(Type::Verbatim(lex(alloc, text)?))
}

/// A literal after the attributes of a text.
fn literal(alloc: Global, attrs: &str, text: &str) -> Result<Expr<Nothing>, Error> {
    let tokens = lex(alloc, attrs)?;
    let attrs = read_all_with(alloc, ParseOuter::<Nothing>::new(), &tokens)?;
    let lit = read_all::<Lit>(alloc, &lex(alloc, text)?)?;
    Ok(Expr::Lit(ExprLit { attrs, lit }))
}

#[test]
fn names_and_lone_tokens(rt: HostRuntime) {
    let alloc = rt.alloc();
    says(&rt, shown(alloc, path(alloc, "A")), "A");
    says(&rt, shown(alloc, path(alloc, "::a::B")), ":: a :: B");
    says(&rt, shown(alloc, call(alloc, "a::b!{x}")), "a :: b ! { x }");
    says(&rt, shown(alloc, Ok(infer(alloc))), "_");
    says(&rt, shown(alloc, Ok(never(alloc))), "!");
}

fn in_paren(alloc: Global) -> Result<Ty, Error> {
    paren(alloc, path(alloc, "A")?)
}

fn in_brackets(alloc: Global) -> Result<Ty, Error> {
    slice(alloc, path(alloc, "A")?)
}

/// An array of as many as the literal of a text says, after attributes.
fn of_literal(alloc: Global, attrs: &str, text: &str) -> Result<Ty, Error> {
    array(alloc, path(alloc, "A")?, literal(alloc, attrs, text)?)
}

#[test]
fn types_in_brackets(rt: HostRuntime) {
    let alloc = rt.alloc();
    says(&rt, shown(alloc, in_paren(alloc)), "(A)");
    says(&rt, shown(alloc, in_brackets(alloc)), "[A]");
    says(&rt, shown(alloc, of_literal(alloc, "", "1")), "[A ; 1]");
    says(
        &rt,
        shown(alloc, of_literal(alloc, "#[b] #[c = 1]", "1")),
        "[A ; # [b] # [c = 1] 1]",
    );
}

fn to_const(alloc: Global) -> Result<Ty, Error> {
    let mutability = PointerMutability::Const(Const::default());
    pointer(alloc, mutability, path(alloc, "A")?)
}

fn to_mut(alloc: Global) -> Result<Ty, Error> {
    let mutability = PointerMutability::Mut(Mut::default());
    pointer(alloc, mutability, path(alloc, "A")?)
}

fn by_reference(alloc: Global) -> Result<Ty, Error> {
    reference(alloc, None, None, path(alloc, "A")?)
}

fn by_whole_reference(alloc: Global) -> Result<Ty, Error> {
    let lifetime = lifetime(alloc)?;
    reference(
        alloc,
        Some(lifetime),
        Some(Mut::default()),
        path(alloc, "A")?,
    )
}

#[test]
fn pointers_and_references(rt: HostRuntime) {
    let alloc = rt.alloc();
    says(&rt, shown(alloc, to_const(alloc)), "* const A");
    says(&rt, shown(alloc, to_mut(alloc)), "* mut A");
    says(&rt, shown(alloc, by_reference(alloc)), "& A");
    says(&rt, shown(alloc, by_whole_reference(alloc)), "& 'a mut A");
}

fn one(alloc: Global) -> Result<Ty, Error> {
    let mut elems = Punctuated::new(alloc);
    elems.push_value(path(alloc, "A")?)?;
    Ok(tuple(alloc, elems))
}

fn one_and_comma(alloc: Global) -> Result<Ty, Error> {
    let mut elems = Punctuated::new(alloc);
    elems.push_value(path(alloc, "A")?)?;
    elems.push_punct(Comma::default())?;
    Ok(tuple(alloc, elems))
}

fn two(alloc: Global) -> Result<Ty, Error> {
    let mut elems = Punctuated::new(alloc);
    elems.push_value(path(alloc, "A")?)?;
    elems.push_punct(Comma::default())?;
    elems.push_value(path(alloc, "B")?)?;
    Ok(tuple(alloc, elems))
}

#[test]
fn a_lone_element_has_a_comma(rt: HostRuntime) {
    let alloc = rt.alloc();
    says(
        &rt,
        shown(alloc, Ok(tuple(alloc, Punctuated::new(alloc)))),
        "()",
    );
    says(&rt, shown(alloc, one(alloc)), "(A ,)");
    says(&rt, shown(alloc, one_and_comma(alloc)), "(A ,)");
    says(&rt, shown(alloc, two(alloc)), "(A , B)");
}

fn verbatim_in_paren(alloc: Global) -> Result<Ty, Error> {
    paren(alloc, verbatim(alloc, "dyn A + 'b")?)
}

#[test]
fn held_tokens_print_as_they_are(rt: HostRuntime) {
    let alloc = rt.alloc();
    says(&rt, shown(alloc, verbatim(alloc, "")), "");
    says(
        &rt,
        shown(alloc, verbatim(alloc, "fn(A, [b; 1]) -> c::D")),
        "fn (A , [b ; 1]) -> c :: D",
    );
    says(&rt, shown(alloc, verbatim_in_paren(alloc)), "(dyn A + 'b)");
}

/// `_` in as many parentheses.
fn nested(alloc: Global, depth: usize) -> Result<Ty, Error> {
    let mut ty = infer(alloc);
    for _ in 0..depth {
        ty = paren(alloc, ty)?;
    }
    Ok(ty)
}

/// How many parentheses open in the print.
fn depth_printed(alloc: Global, depth: usize) -> Result<String, Error> {
    let text = shown(alloc, nested(alloc, depth))?;
    let opened = text.as_str().chars().filter(|c| *c == '(').count();
    let mut out = String::new(alloc);
    write!(out, "{opened}")?;
    Ok(out)
}

#[test]
fn deep_types_print(rt: HostRuntime) {
    let alloc = rt.alloc();
    says(&rt, depth_printed(alloc, 200), "200");
}
