//! What pointers to functions made by hand print.

use crate::generics_tests::{binder, both, holds, ident, lone, pair, prints_as, says, shown, ty};
use crate::nothing::Nothing;
use crate::pat_tests::{boxed, inner, marked, outer};
use std::alloc::Global;
use std::fmt::Write;
use std::process::Abort;
use syn_mid::{
    Abi, Attribute, FnPtrVariadic, NamedArg, NamedArgOf, ReturnType, ReturnTypeOf, Type, TypeFnPtr,
};
use token_core::token::{Colon, Comma, DotDotDot, Extern, Fn, Paren, RArrow, Unsafe};
use token_core::{Error, Items, LitStr, Punctuated, Span, ToTokens, TokenStream};

type Arg = NamedArg<Nothing>;

type Args = Punctuated<Arg, Comma>;

type More = FnPtrVariadic<Nothing>;

type Pointer = TypeFnPtr<Nothing>;

type Attributes = Items<Attribute<Nothing>>;

// ---- parts

/// `A`
fn bare(alloc: Global) -> Result<Arg, Error> {
    Ok(NamedArgOf {
        attrs: Items::new(alloc),
        name: None,
        ty: ty(alloc, "A")?,
    })
}

/// `x: A` after attributes
fn named(alloc: Global, attrs: Result<Attributes, Error>) -> Result<Arg, Error> {
    let (attrs, (name, ty)) = both(attrs, both(ident(alloc, "x"), ty(alloc, "A")))?;
    Ok(NamedArgOf {
        attrs,
        name: Some((name, Colon::default())),
        ty,
    })
}

/// `x: A`
fn simple(alloc: Global) -> Result<Arg, Error> {
    named(alloc, Ok(Items::new(alloc)))
}

/// `...`
fn more(alloc: Global) -> More {
    FnPtrVariadic {
        attrs: Items::new(alloc),
        name: None,
        dots: DotDotDot::default(),
        comma: None,
    }
}

/// `y: ...,` after attributes
fn named_more(alloc: Global, attrs: Result<Attributes, Error>) -> Result<More, Error> {
    let (attrs, name) = both(attrs, ident(alloc, "y"))?;
    Ok(FnPtrVariadic {
        attrs,
        name: Some((name, Colon::default())),
        dots: DotDotDot::default(),
        comma: Some(Comma::default()),
    })
}

#[test]
fn arguments_print(rt: HostRuntime) {
    let alloc = rt.alloc();
    says(&rt, shown(alloc, bare(alloc)), "A");
    says(&rt, shown(alloc, simple(alloc)), "x : A");
    let marked = named(alloc, outer(alloc, "#[b] #[c]"));
    says(&rt, shown(alloc, marked), "# [b] # [c] x : A");
    let within = named(alloc, inner(alloc, "#![b]"));
    says(&rt, shown(alloc, within), "x : A");
}

#[test]
fn further_arguments_print(rt: HostRuntime) {
    let alloc = rt.alloc();
    says(&rt, shown(alloc, Ok(more(alloc))), "...");
    let marked = named_more(alloc, outer(alloc, "#[b]"));
    says(&rt, shown(alloc, marked), "# [b] y : ... ,");
    let within = named_more(alloc, inner(alloc, "#![b]"));
    says(&rt, shown(alloc, within), "y : ... ,");
}

// ---- pointers

/// `fn(..)`
fn pointer(
    alloc: Global,
    inputs: Result<Args, Error>,
    variadic: Result<Option<More>, Error>,
) -> Result<Type<Nothing>, Error> {
    let (inputs, variadic) = both(inputs, variadic)?;
    Ok(Type::from(TypeFnPtr {
        attrs: Items::new(alloc),
        lifetimes: None,
        unsafety: None,
        abi: None,
        fn_token: Fn::default(),
        paren_token: Paren::default(),
        inputs,
        variadic,
        output: ReturnTypeOf::Default,
    }))
}

fn prints(alloc: Global, inputs: Result<Args, Error>) -> Result<String, Error> {
    shown(alloc, pointer(alloc, inputs, Ok(None)))
}

/// With `...` after these arguments.
fn prints_more(alloc: Global, inputs: Result<Args, Error>) -> Result<String, Error> {
    shown(alloc, pointer(alloc, inputs, Ok(Some(more(alloc)))))
}

fn some<T: Drop>(made: Result<T, Error>) -> Result<Option<T>, Error> {
    Ok(Some(made?))
}

/// With `#[b] y: ...,` after these arguments.
fn prints_named(alloc: Global, inputs: Result<Args, Error>) -> Result<String, Error> {
    let more = named_more(alloc, outer(alloc, "#[b]"));
    shown(alloc, pointer(alloc, inputs, some(more)))
}

fn two(alloc: Global) -> Result<Args, Error> {
    let (first, second) = both(bare(alloc), named(alloc, outer(alloc, "#[b]")))?;
    pair(alloc, first, second)
}

#[test]
fn pointers_print(rt: HostRuntime) {
    let alloc = rt.alloc();
    says(&rt, prints(alloc, Ok(Punctuated::new(alloc))), "fn ()");
    says(&rt, prints(alloc, lone(alloc, bare(alloc))), "fn (A)");
    let one = marked(alloc, simple(alloc));
    says(&rt, prints(alloc, one), "fn (x : A ,)");
    says(&rt, prints(alloc, two(alloc)), "fn (A , # [b] x : A)");
}

#[test]
fn a_comma_stands_before_further_arguments(rt: HostRuntime) {
    let alloc = rt.alloc();
    let none = Ok(Punctuated::new(alloc));
    says(&rt, prints_more(alloc, none), "fn (...)");
    let one = lone(alloc, simple(alloc));
    says(&rt, prints_more(alloc, one), "fn (x : A , ...)");
    let whole = marked(alloc, simple(alloc));
    says(&rt, prints_more(alloc, whole), "fn (x : A , ...)");
    let some = "fn (A , # [b] x : A , ...)";
    says(&rt, prints_more(alloc, two(alloc)), some);
}

#[test]
fn named_further_arguments_print(rt: HostRuntime) {
    let alloc = rt.alloc();
    let none = Ok(Punctuated::new(alloc));
    says(&rt, prints_named(alloc, none), "fn (# [b] y : ... ,)");
    let one = lone(alloc, bare(alloc));
    says(&rt, prints_named(alloc, one), "fn (A , # [b] y : ... ,)");
}

fn convention(alloc: Global) -> Result<Abi, Error> {
    Ok(Abi {
        extern_token: Extern::default(),
        name: Some(LitStr::new(alloc, "\"C\"", Span::none())?),
    })
}

/// `-> B`
fn output(alloc: Global) -> Result<ReturnType<Nothing>, Error> {
    let ty = boxed(alloc, ty(alloc, "B"))?;
    Ok(ReturnTypeOf::Type(RArrow::default(), ty))
}

/// `for<'a> unsafe extern "C" fn(.., ...) -> B`
pub(crate) fn whole(alloc: Global, inputs: Result<Args, Error>) -> Result<Pointer, Error> {
    let head = both(binder(alloc, "a"), convention(alloc));
    let ((binder, abi), (inputs, output)) = both(head, both(inputs, output(alloc)))?;
    Ok(TypeFnPtr {
        attrs: Items::new(alloc),
        lifetimes: Some(binder),
        unsafety: Some(Unsafe::default()),
        abi: Some(abi),
        fn_token: Fn::default(),
        paren_token: Paren::default(),
        inputs,
        variadic: Some(more(alloc)),
        output,
    })
}

fn as_type(pointer: Result<Pointer, Error>) -> Result<Type<Nothing>, Error> {
    Ok(Type::from(pointer?))
}

#[test]
fn pointers_with_all_parts_print(rt: HostRuntime) {
    let alloc = rt.alloc();
    let wanted = "for < 'a > unsafe extern \"C\" fn (x : A , ...) -> B";
    let bare = whole(alloc, lone(alloc, simple(alloc)));
    says(&rt, shown(alloc, bare), wanted);
    let marked = whole(alloc, marked(alloc, simple(alloc)));
    says(&rt, shown(alloc, as_type(marked)), wanted);
}

// ---- depth and memory

/// `fn() -> fn() -> A`, as often as wanted
fn nested(alloc: Global, times: u8) -> Result<Type<Nothing>, Error> {
    let mut inner = ty(alloc, "A")?;
    for _ in 0..times {
        let ty = boxed(alloc, Ok(inner))?;
        inner = Type::from(TypeFnPtr {
            attrs: Items::new(alloc),
            lifetimes: None,
            unsafety: None,
            abi: None,
            fn_token: Fn::default(),
            paren_token: Paren::default(),
            inputs: Punctuated::new(alloc),
            variadic: None,
            output: ReturnTypeOf::Type(RArrow::default(), ty),
        });
    }
    Ok(inner)
}

fn nested_text(alloc: Global, times: u8) -> Result<String, Error> {
    let mut out = String::new(alloc);
    for _ in 0..times {
        write!(out, "fn () -> ")?;
    }
    write!(out, "A")?;
    Ok(out)
}

#[test]
fn deep_pointers_print(rt: HostRuntime) {
    let alloc = rt.alloc();
    says(&rt, shown(alloc, nested(alloc, 1)), "fn () -> A");
    let deep = nested(alloc, 200);
    let wanted = nested_text(alloc, 200);
    holds(&rt, prints_as(alloc, deep, wanted));
}

/// It is printed after a mark, or refused with that mark alone left.
fn is_borne(rt: &impl Abort, alloc: Global, pointer: &Pointer) {
    let mut out = TokenStream::new(alloc);
    let marked = Comma::default().to_tokens(alloc, &mut out).is_ok();
    let before = out.len();
    match pointer.to_tokens(alloc, &mut out) {
        Ok(()) => assert!(rt; (out.len() == 14) | !marked),
        Err(_) => assert!(rt; out.len() == before),
    }
}

/// Passes whichever allocation fails: refused, the list is as before.
#[test]
fn pointers_bear_want_of_memory(rt: HostRuntime) {
    let alloc = rt.alloc();
    match whole(alloc, lone(alloc, simple(alloc))) {
        Ok(pointer) => is_borne(&rt, alloc, &pointer),
        Err(_) => {}
    }
}
