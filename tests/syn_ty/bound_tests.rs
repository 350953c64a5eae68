//! Bounds read from texts, and what they print; refusals, and what they name.

use crate::generics_tests::{printed, says};
use crate::nothing::Nothing;
use std::alloc::Global;
use std::process::Abort;
use syn_mid::{BoundConst, GenericParam, TraitBoundModifiers, Type, TypeParamBound};
use token_core::{Error, ErrorKind, read_all};
use token_text::lex;

type Bound = TypeParamBound<Nothing>;

fn read(alloc: Global, text: &str) -> Result<Bound, Error> {
    read_all(alloc, &lex(alloc, text)?)
}

/// What the bound of a text prints.
fn again(alloc: Global, text: &str) -> Result<String, Error> {
    let bound = read(alloc, text)?;
    printed(alloc, &bound)
}

/// It is refused with this text, from this place on.
fn refused(rt: &impl Abort, alloc: Global, text: &str, wanted: &str, at: usize) {
    match read(alloc, text) {
        Ok(_) => panic!(rt; "read, and not refused: {text}"),
        Err(error) => {
            assert_eq!(rt; error.text(), wanted);
            assert_eq!(rt; error.start().lo, at);
        }
    }
}

#[test]
fn bounds_print_as_they_are_read(rt: HostRuntime) {
    let alloc = rt.alloc();
    for (text, wanted) in [
        ("'a", "'a"),
        ("A", "A"),
        ("::a::B", ":: a :: B"),
        ("try::A", "try :: A"),
        ("?A", "? A"),
        ("for<'a> A", "for < 'a > A"),
        ("for<> A", "for < > A"),
        ("for<'a, 'b,> A", "for < 'a , 'b , > A"),
        ("for<T> A", "for < T > A"),
        ("for<'a: 'b> A", "for < 'a : 'b > A"),
        ("A<B>", "A < B >"),
        ("A(B) -> C", "A (B) -> C"),
        ("A<>(B)", "A (B)"),
        ("use<'a, T>", "use < 'a , T >"),
        ("(A)", "(A)"),
        ("(?A)", "(? A)"),
        ("(for<'a> A)", "(for < 'a > A)"),
    ] {
        says(&rt, again(alloc, text), wanted);
    }
}

#[test]
fn a_binder_holds_its_parameters(rt: HostRuntime) {
    let alloc = rt.alloc();
    match read(alloc, "(for<'a, 'b> A)") {
        Ok(TypeParamBound::Trait(bound)) => {
            assert!(rt; bound.paren_token.is_some());
            assert!(rt; bound.maybe.is_none());
            match &bound.lifetimes {
                Some(binder) => {
                    assert_eq!(rt; binder.lifetimes.len(), 2);
                    for param in binder.lifetimes.iter() {
                        assert!(rt; matches!(param, GenericParam::Lifetime(_)));
                    }
                }
                None => panic!(rt; "no binder"),
            }
        }
        Ok(_) => panic!(rt; "no trait"),
        Err(error) => panic!(rt; "refused: {}", error.text()),
    }
}

#[test]
fn a_binder_beside_a_question_mark_is_refused_at_the_mark(rt: HostRuntime) {
    let alloc = rt.alloc();
    let wanted = ErrorKind::BinderWithQuestion.text();
    refused(&rt, alloc, "for<'a> ?A", wanted, 8);
    refused(&rt, alloc, "? for<'a> A", wanted, 0);
    refused(&rt, alloc, "(for<'a> ?A)", wanted, 9);
    refused(&rt, alloc, "for<'a> ? for<'b> A", "expected identifier", 10);
    refused(
        &rt,
        alloc,
        "for<'a> ?",
        "unexpected end of input, expected identifier",
        0,
    );
}

#[test]
fn what_is_no_bound_is_refused(rt: HostRuntime) {
    let alloc = rt.alloc();
    refused(
        &rt,
        alloc,
        "",
        "unexpected end of input, expected identifier",
        0,
    );
    refused(&rt, alloc, "A + B", "unexpected token", 2);
    refused(&rt, alloc, "A<B>(C)", "unexpected token", 4);
    refused(&rt, alloc, "('a)", "expected identifier", 1);
    refused(&rt, alloc, "((A))", "expected identifier", 1);
    refused(&rt, alloc, "(A B)", "unexpected token", 3);
    refused(&rt, alloc, "use 'a", "expected `<`", 4);
    refused(&rt, alloc, "for 'a A", "expected `<`", 4);
    refused(&rt, alloc, "for<'a 'b> A", "expected `,`", 7);
    refused(
        &rt,
        alloc,
        "for<'a, , 'b> A",
        "expected one of: identifier, lifetime, `const`",
        8,
    );
    refused(
        &rt,
        alloc,
        "for<'a",
        "unexpected end of input, expected `,`",
        0,
    );
}

#[test]
fn modifiers_print_as_they_are_read(rt: HostRuntime) {
    let alloc = rt.alloc();
    for (text, wanted) in [
        ("const A", "const A"),
        ("[const] A", "[const] A"),
        ("async A", "async A"),
        ("const async A", "const async A"),
        ("[const] async ?A", "[const] async ? A"),
        ("for<'a> [const] async A", "for < 'a > [const] async A"),
        ("(const A)", "(const A)"),
        ("(for<'a> async A)", "(for < 'a > async A)"),
        ("(const ?A)", "(const ? A)"),
        // what follows is in its normal form
        ("const A::<B>", "const A :: < B >"),
        ("const A<B, 'a>", "const A < 'a , B , >"),
        ("async Fn::()", "async Fn ()"),
        // an invisible group is no part of the tree
        ("const \\(A\\)", "const A"),
        ("\\((const A)\\)", "(const A)"),
        // words that are no keywords
        ("r#async", "r#async"),
        ("r#const", "r#const"),
    ] {
        says(&rt, again(alloc, text), wanted);
    }
}

#[test]
fn modifiers_out_of_order_are_refused(rt: HostRuntime) {
    let alloc = rt.alloc();
    let wanted = "expected identifier";
    refused(&rt, alloc, "async const A", wanted, 6);
    refused(&rt, alloc, "async [const] A", wanted, 6);
    refused(&rt, alloc, "async async A", wanted, 6);
    refused(&rt, alloc, "?const A", wanted, 1);
    refused(&rt, alloc, "?async A", wanted, 1);
    refused(&rt, alloc, "const for<'a> A", wanted, 6);
    refused(&rt, alloc, "const (A)", wanted, 6);
    refused(&rt, alloc, "const 'a", wanted, 6);
    refused(&rt, alloc, "[async] A", "expected `const`", 1);
    refused(&rt, alloc, "[const async] A", "unexpected token", 7);
    refused(
        &rt,
        alloc,
        "for<'a> const ?A",
        ErrorKind::BinderWithQuestion.text(),
        14,
    );
}

/// What the trait bound of a text holds between its binder and its `?`.
fn modifiers(alloc: Global, text: &str) -> Result<TraitBoundModifiers, Error> {
    match read(alloc, text)? {
        TypeParamBound::Trait(bound) => Ok(bound.modifiers),
        _ => Ok(TraitBoundModifiers::default()),
    }
}

/// Modifiers are refused from here to there.
fn not_supported(rt: &impl Abort, alloc: Global, text: &str, from: usize, to: usize) {
    match modifiers(alloc, text) {
        Ok(modifiers) => match modifiers.require_empty(alloc) {
            Ok(_) => panic!(rt; "none required, and not refused: {text}"),
            Err(error) => {
                assert!(rt; error.kind() == ErrorKind::BoundModifiersNotSupported);
                assert_eq!(rt; error.text(), "trait bound modifiers are not supported here");
                assert_eq!(rt; error.start().lo, from);
                assert_eq!(rt; error.end().hi, to);
            }
        },
        Err(error) => panic!(rt; "refused: {}", error.text()),
    }
}

#[test]
fn modifiers_are_refused_where_none_is_supported(rt: HostRuntime) {
    let alloc = rt.alloc();
    not_supported(&rt, alloc, "const A", 0, 5);
    not_supported(&rt, alloc, "[const] A", 0, 7);
    not_supported(&rt, alloc, "[ const ] async A", 0, 15);
    not_supported(&rt, alloc, "for<'a> const async A", 8, 19);
    not_supported(&rt, alloc, "(async ?A)", 1, 6);
    assert!(rt; TraitBoundModifiers::default().require_empty(alloc).is_ok());
    match modifiers(alloc, "for<'a> A") {
        Ok(modifiers) => assert!(rt; modifiers.require_empty(alloc).is_ok()),
        Err(error) => panic!(rt; "refused: {}", error.text()),
    }
}

#[test]
fn modifiers_are_fields_of_the_tree(rt: HostRuntime) {
    let alloc = rt.alloc();
    match modifiers(alloc, "[const] async A") {
        Ok(modifiers) => {
            assert!(rt; matches!(modifiers.constness, Some(BoundConst::Conditional(_, _))));
            assert!(rt; modifiers.asyncness.is_some());
        }
        Err(error) => panic!(rt; "refused: {}", error.text()),
    }
    match modifiers(alloc, "const A") {
        Ok(modifiers) => {
            assert!(rt; matches!(modifiers.constness, Some(BoundConst::Const(_))));
            assert!(rt; modifiers.asyncness.is_none());
        }
        Err(error) => panic!(rt; "refused: {}", error.text()),
    }
}

/// What the type of a text prints.
fn type_again(alloc: Global, text: &str) -> Result<String, Error> {
    let ty: Type<Nothing> = read_all(alloc, &lex(alloc, text)?)?;
    printed(alloc, &ty)
}

#[test]
fn a_list_of_bounds_goes_on_at_async(rt: HostRuntime) {
    let alloc = rt.alloc();
    says(&rt, type_again(alloc, "A + async B"), "A + async B");
    says(&rt, type_again(alloc, "dyn A + async B +"), "dyn A + async B +");
    says(
        &rt,
        type_again(alloc, "impl async A + [const] async B"),
        "impl async A + [const] async B",
    );
    // it is no type, so no first bound without `dyn`
    assert!(rt; type_again(alloc, "async A").is_err());
    assert!(rt; type_again(alloc, "async A + B").is_err());
    assert!(rt; type_again(alloc, "(async A) + B").is_err());
    assert!(rt; type_again(alloc, "for<'a> async A").is_err());
}
