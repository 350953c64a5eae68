//! Types, paths, bounds, parameters and clauses on the front of a list: before each rest that may follow, what is read and what is
//! left.

use crate::left::{leaves, read_and_left};
use crate::verbatim_tests::says;
use std::alloc::Global;
use std::process::Abort;
use syn_mid::{
    AngleBracketedGenericArguments, BoundLifetimes, ConstParam, GenericArgument, GenericParam,
    Generics, LifetimeParam, NamedArg, ParenthesizedGenericArguments, Path, PathSegment,
    PreciseCapture, ReturnType, TraitBound, Type, TypeArray, TypeFnPtr, TypeImplTrait, TypeParam,
    TypeParamBound, TypeParen, TypePath, TypePtr, TypeReference, TypeSlice, TypeTraitObject,
    TypeTuple, WhereClause, WherePredicate,
};
use syn_sample::sample::Sample;
use token_core::{Error, Parse, ParseStream, ToTokens};

type Ty = Type<Sample>;

fn without_plus(alloc: Global, input: &mut ParseStream<'_>) -> Result<Ty, Error> {
    Ty::without_plus(alloc, input)
}

fn output_without_plus(
    alloc: Global,
    input: &mut ParseStream<'_>,
) -> Result<ReturnType<Sample>, Error> {
    ReturnType::<Sample>::without_plus(alloc, input)
}

fn turbofish(
    alloc: Global,
    input: &mut ParseStream<'_>,
) -> Result<AngleBracketedGenericArguments<Sample>, Error> {
    AngleBracketedGenericArguments::<Sample>::parse_turbofish(alloc, input)
}

fn optional_binder(
    alloc: Global,
    input: &mut ParseStream<'_>,
) -> Result<Option<BoundLifetimes<Sample>>, Error> {
    BoundLifetimes::<Sample>::parse_optional(alloc, input)
}

fn optional_clause(
    alloc: Global,
    input: &mut ParseStream<'_>,
) -> Result<Option<WhereClause<Sample>>, Error> {
    WhereClause::<Sample>::parse_optional(alloc, input)
}

/// Each text is read so, with plus and without.
fn both_leave(rt: &impl Abort, alloc: Global, cases: &[(&str, &str)]) {
    for (text, wanted) in cases {
        leaves::<Ty>(rt, alloc, text, wanted);
        says(rt, alloc, read_and_left(alloc, text, without_plus), wanted);
    }
}

/// Each text is read so.
fn all_leave<T: Parse + ToTokens + Drop>(rt: &impl Abort, alloc: Global, cases: &[(&str, &str)]) {
    for (text, wanted) in cases {
        leaves::<T>(rt, alloc, text, wanted);
    }
}

/// As statements, items and arms of a match go on behind a type.
#[test]
fn reads_a_type_up_to_its_last_token(rt: HostRuntime) {
    let alloc = rt.alloc();
    both_leave(
        &rt,
        alloc,
        &[
            ("T", "T |"),
            ("Vec<T>", "Vec < T > |"),
            ("T, x", "T | , x"),
            ("(A, B), x", "(A , B) | , x"),
            ("T; x", "T | ; x"),
            ("[T; 3]; x", "[T ; 3] | ; x"),
            ("T = x", "T | = x"),
            ("&'a T = x", "& 'a T | = x"),
            ("T > x", "T | > x"),
            ("*const T > x", "* const T | > x"),
            ("T: x", "T | : x"),
            ("_: x", "_ | : x"),
            ("T => x", "T | => x"),
            ("fn(A) -> B => x", "fn (A) -> B | => x"),
            ("T | x", "T | | x"),
            ("! | x", "! | | x"),
            ("T { x }", "T | { x }"),
            ("dyn A { x }", "dyn A | { x }"),
            ("T where A: B", "T | where A : B"),
            ("dyn A where A: B", "dyn A | where A : B"),
            ("T for U", "T | for U"),
            ("A<B> for U", "A < B > | for U"),
            ("T in x", "T | in x"),
            ("a::B in x", "a :: B | in x"),
            ("T if x", "T | if x"),
            ("&mut T if x", "& mut T | if x"),
            ("T as U", "T | as U"),
            ("m!() as U", "m ! () | as U"),
        ],
    );
}

/// Without plus a `+` is left; `dyn A` takes it where it may, and behind the last one a word is a further bound.
#[test]
fn leaves_a_plus_or_takes_it(rt: HostRuntime) {
    let alloc = rt.alloc();
    all_leave::<Ty>(
        &rt,
        alloc,
        &[
            ("dyn A + B = x", "dyn A + B | = x"),
            ("impl A + B where x", "impl A + B | where x"),
            ("dyn A + = x", "dyn A + | = x"),
            ("dyn A + 'a, x", "dyn A + 'a | , x"),
        ],
    );
    for (text, wanted) in [
        ("T + A", "T | + A"),
        ("dyn A + B = x", "dyn A | + B = x"),
        ("impl A + B where x", "impl A | + B where x"),
        ("&dyn A + 'a", "& dyn A | + 'a"),
    ] {
        says(&rt, alloc, read_and_left(alloc, text, without_plus), wanted);
    }
    let refused = read_and_left(alloc, "dyn A + where", Ty::parse);
    says(&rt, alloc, refused, "expected identifier 8-13 8-13");
}

/// Forms in brackets are over with them, whatever follows.
#[test]
fn reads_forms_in_brackets(rt: HostRuntime) {
    let alloc = rt.alloc();
    all_leave::<TypeArray<Sample>>(
        &rt,
        alloc,
        &[("[T; 3] :: a", "[T ; 3] | :: a"), ("[T; 3] + A", "[T ; 3] | + A")],
    );
    all_leave::<TypeSlice<Sample>>(
        &rt,
        alloc,
        &[("[T] [U]", "[T] | [U]"), ("[T] -> U", "[T] | -> U")],
    );
    all_leave::<TypeParen<Sample>>(
        &rt,
        alloc,
        &[("(T) + A", "(T) | + A"), ("(T)(U)", "(T) | (U)")],
    );
    all_leave::<TypeTuple<Sample>>(
        &rt,
        alloc,
        &[("(A, B)?", "(A , B) | ?"), ("() + A", "() | + A")],
    );
}

#[test]
fn reads_single_forms_up_to_what_they_point_to(rt: HostRuntime) {
    let alloc = rt.alloc();
    all_leave::<TypePtr<Sample>>(
        &rt,
        alloc,
        &[("*mut T + A", "* mut T | + A"), ("*const T = x", "* const T | = x")],
    );
    all_leave::<TypeReference<Sample>>(
        &rt,
        alloc,
        &[("&T + A", "& T | + A"), ("&'a mut T { x }", "& 'a mut T | { x }")],
    );
    all_leave::<TypeFnPtr<Sample>>(
        &rt,
        alloc,
        &[("fn(A), x", "fn (A) | , x"), ("fn() -> T where x", "fn () -> T | where x")],
    );
    all_leave::<TypePath<Sample>>(
        &rt,
        alloc,
        &[("a::B<T>, x", "a :: B < T > | , x"), ("<T as A>::B = x", "< T as A > :: B | = x")],
    );
    all_leave::<TypeTraitObject<Sample>>(
        &rt,
        alloc,
        &[("dyn A + B, x", "dyn A + B | , x"), ("dyn A = x", "dyn A | = x")],
    );
    all_leave::<TypeImplTrait<Sample>>(
        &rt,
        alloc,
        &[("impl A { x }", "impl A | { x }"), ("impl A + 'a => x", "impl A + 'a | => x")],
    );
    all_leave::<NamedArg<Sample>>(
        &rt,
        alloc,
        &[("a: T, x", "a : T | , x"), ("T", "T |")],
    );
}

/// Nothing, or an arrow and a type.
#[test]
fn reads_an_output(rt: HostRuntime) {
    let alloc = rt.alloc();
    for (text, wanted) in [
        ("{ x }", "| { x }"),
        ("-> T { x }", "-> T | { x }"),
        ("-> T where A: B", "-> T | where A : B"),
        ("; x", "| ; x"),
        ("-> T; x", "-> T | ; x"),
    ] {
        leaves::<ReturnType<Sample>>(&rt, alloc, text, wanted);
        says(&rt, alloc, read_and_left(alloc, text, output_without_plus), wanted);
    }
    let plus = read_and_left(alloc, "-> dyn A + B", output_without_plus);
    says(&rt, alloc, plus, "-> dyn A | + B");
}

/// A path goes on with `::` and a segment, but not with parentheses behind it; a segment with `<` that begins no comparison.
#[test]
fn reads_a_path_up_to_its_last_segment(rt: HostRuntime) {
    let alloc = rt.alloc();
    all_leave::<Path<Sample>>(
        &rt,
        alloc,
        &[
            ("a::B<T>", "a :: B < T > |"),
            ("a::b!{x}", "a :: b | ! { x }"),
            ("a <= b", "a | <= b"),
            ("a <<= b", "a | <<= b"),
            ("a::b {x}", "a :: b | { x }"),
            ("a::<T> + b", "a :: < T > | + b"),
        ],
    );
    all_leave::<PathSegment<Sample>>(
        &rt,
        alloc,
        &[("a::b", "a | :: b"), ("A<T>::b", "A < T > | :: b"), ("a <= b", "a | <= b")],
    );
    all_leave::<AngleBracketedGenericArguments<Sample>>(
        &rt,
        alloc,
        &[("<T>::a", "< T > | :: a"), ("<T><U>", "< T > | < U >"), ("<T> = x", "< T > | = x")],
    );
    for (text, wanted) in [("::<T>(x)", ":: < T > | (x)"), ("::<T>::a", ":: < T > | :: a")] {
        says(&rt, alloc, read_and_left(alloc, text, turbofish), wanted);
    }
    all_leave::<ParenthesizedGenericArguments<Sample>>(
        &rt,
        alloc,
        &[("(A) -> B + C", "(A) -> B | + C"), ("(A), x", "(A) | , x")],
    );
}

#[test]
fn reads_arguments_and_parameters(rt: HostRuntime) {
    let alloc = rt.alloc();
    all_leave::<GenericArgument<Sample>>(
        &rt,
        alloc,
        &[("T, x", "T | , x"), ("'a> x", "'a | > x"), ("A = T> x", "A = T | > x")],
    );
    all_leave::<GenericParam<Sample>>(
        &rt,
        alloc,
        &[("'a: 'b, x", "'a : 'b | , x"), ("T: A> x", "T : A | > x"), ("T", "T |")],
    );
    all_leave::<LifetimeParam<Sample>>(
        &rt,
        alloc,
        &[("'a, x", "'a | , x"), ("'a: 'b + 'c> x", "'a : 'b + 'c | > x")],
    );
    all_leave::<TypeParam<Sample>>(
        &rt,
        alloc,
        &[("T: A + B, x", "T : A + B | , x"), ("T = U> x", "T = U | > x")],
    );
    all_leave::<ConstParam<Sample>>(
        &rt,
        alloc,
        &[("const N: T, x", "const N : T | , x"), ("const N: T = 3> x", "const N : T = 3 | > x")],
    );
    all_leave::<PreciseCapture>(
        &rt,
        alloc,
        &[("use<'a, T> + A", "use < 'a , T > | + A"), ("use<>::a", "use < > | :: a")],
    );
    all_leave::<BoundLifetimes<Sample>>(
        &rt,
        alloc,
        &[("for<'a> fn", "for < 'a > | fn"), ("for<> for<>", "for < > | for <>")],
    );
    for (text, wanted) in [("A", "| A"), ("for<'a> A", "for < 'a > | A")] {
        says(&rt, alloc, read_and_left(alloc, text, optional_binder), wanted);
    }
}

/// A bound leaves the `+` behind it.
#[test]
fn reads_a_bound(rt: HostRuntime) {
    let alloc = rt.alloc();
    all_leave::<TypeParamBound<Sample>>(
        &rt,
        alloc,
        &[
            ("A + B", "A | + B"),
            ("'a + B", "'a | + B"),
            ("?A, x", "? A | , x"),
            ("A(T) -> U { x }", "A (T) -> U | { x }"),
            ("for<'a> A<'a> where x", "for < 'a > A < 'a > | where x"),
        ],
    );
    all_leave::<TraitBound<Sample>>(
        &rt,
        alloc,
        &[("A + B", "A | + B"), ("?A = x", "? A | = x"), ("a::A; x", "a :: A | ; x")],
    );
}

#[test]
fn reads_generics_and_clauses(rt: HostRuntime) {
    let alloc = rt.alloc();
    all_leave::<Generics<Sample>>(
        &rt,
        alloc,
        &[
            ("<T> A", "< T > | A"),
            ("<T: A>(x)", "< T : A > | (x)"),
            ("A", "| A"),
            ("= x", "| = x"),
            ("where T: A", "| where T : A"),
        ],
    );
    all_leave::<WherePredicate<Sample>>(
        &rt,
        alloc,
        &[("T: A, x", "T : A | , x"), ("'a: 'b { x }", "'a : 'b | { x }"), ("T: A = x", "T : A | = x")],
    );
    for (text, wanted) in [
        ("where T: A { x }", "where T : A | { x }"),
        ("where T: A, { x }", "where T : A , | { x }"),
        ("where T: A; x", "where T : A | ; x"),
        ("where T: A = x", "where T : A | = x"),
        ("where 'a: 'b: x", "where 'a : 'b | : x"),
    ] {
        leaves::<WhereClause<Sample>>(&rt, alloc, text, wanted);
        says(&rt, alloc, read_and_left(alloc, text, optional_clause), wanted);
    }
    for (text, wanted) in [("{ x }", "| { x }"), ("; x", "| ; x"), ("= x", "| = x"), ("", "|")] {
        says(&rt, alloc, read_and_left(alloc, text, optional_clause), wanted);
    }
}
