//! What patterns made by hand print.

use crate::expr_tests::{call, const_block};
use crate::generics_tests::{both, ident, literal, lone, pair, path, printed, says, shown, ty};
use crate::nothing::Nothing;
use crate::qualified_tests::qself;
use std::alloc::Global;
use syn_mid::{
    AngleBracketedGenericArguments, Attribute, FieldPat, ParenthesizedGenericArguments, ParseInner,
    ParseOuter, Pat, PatGuard, PatIdent, PatLit, PatOr, PatParen, PatPath, PatRange, PatRangeBound,
    PatReference, PatRest, PatSlice, PatStruct, PatTuple, PatTupleStruct, PatType, PatWild, Path,
    PathArguments, PathSegment, QSelf, ReturnTypeOf,
};
use token_core::token::{
    And, As, At, Brace, Bracket, Colon, Comma, DotDot, DotDotEq, Gt, If, Lt, Mut, Or, Paren,
    PathSep, Ref, Underscore,
};
use token_core::{
    Boxed, Error, Index, Items, Lit, Member, Punctuated, RangeLimits, Span, read_all, read_all_with,
};
use token_text::lex;

type Pattern = Pat<Nothing>;

pub(crate) fn boxed<T: Drop>(alloc: Global, made: Result<T, Error>) -> Result<Boxed<T>, Error> {
    Ok(Boxed::new(alloc, made?)?)
}

pub(crate) fn outer(alloc: Global, text: &str) -> Result<Items<Attribute<Nothing>>, Error> {
    read_all_with(alloc, ParseOuter::<Nothing>::new(), &lex(alloc, text)?)
}

pub(crate) fn inner(alloc: Global, text: &str) -> Result<Items<Attribute<Nothing>>, Error> {
    read_all_with(alloc, ParseInner::<Nothing>::new(), &lex(alloc, text)?)
}

// ---- patterns of one token

pub(crate) fn rest_after(
    alloc: Global,
    attrs: Result<Items<Attribute<Nothing>>, Error>,
) -> Result<PatRest<Nothing>, Error> {
    Ok(PatRest {
        attrs: attrs?,
        dot2_token: DotDot::default(),
    })
}

fn rest(alloc: Global) -> Result<Pattern, Error> {
    Ok(Pat::from(rest_after(alloc, Ok(Items::new(alloc)))?))
}

fn wild(alloc: Global) -> Result<Pattern, Error> {
    Ok(Pat::from(PatWild {
        attrs: Items::new(alloc),
        underscore_token: Underscore::default(),
    }))
}

fn literal_pat(alloc: Global, text: &str) -> Result<PatLit<Nothing>, Error> {
    let lit = read_all::<Lit>(alloc, &lex(alloc, text)?)?;
    Ok(PatLit {
        attrs: Items::new(alloc),
        lit,
    })
}

fn lit(alloc: Global, text: &str) -> Result<Pattern, Error> {
    Ok(Pat::from(literal_pat(alloc, text)?))
}

fn verbatim(alloc: Global, text: &str) -> Result<Pattern, Error> {
    Ok(Pat::Verbatim(lex(alloc, text)?))
}

/// `box 1..`, whose last dot is glued to what follows.
fn glued(alloc: Global) -> Result<Pattern, Error> {
    let mut tokens = lex(alloc, "box 1..,")?;
    tokens.truncate(4);
    Ok(Pat::Verbatim(tokens))
}

#[test]
fn leaves_print(rt: HostRuntime) {
    let alloc = rt.alloc();
    says(&rt, shown(alloc, rest(alloc)), "..");
    says(&rt, shown(alloc, wild(alloc)), "_");
    says(&rt, shown(alloc, lit(alloc, "-1")), "- 1");
    says(&rt, shown(alloc, verbatim(alloc, "box a")), "box a");
}

// ---- bindings, guards, alternatives

fn name(alloc: Global, text: &str) -> Result<Pattern, Error> {
    Ok(Pat::from(PatIdent {
        attrs: Items::new(alloc),
        by_ref: None,
        mutability: None,
        ident: ident(alloc, text)?,
        subpat: None,
    }))
}

/// `ref mut a @ _`
pub(crate) fn binding(alloc: Global) -> Result<Pattern, Error> {
    let (ident, subpat) = both(ident(alloc, "a"), boxed(alloc, wild(alloc)))?;
    Ok(Pat::from(PatIdent {
        attrs: Items::new(alloc),
        by_ref: Some(Ref::default()),
        mutability: Some(Mut::default()),
        ident,
        subpat: Some((At::default(), subpat)),
    }))
}

fn guarded(alloc: Global) -> Result<Pattern, Error> {
    let guard = boxed(alloc, literal(alloc, "true"));
    let (pat, guard) = both(boxed(alloc, name(alloc, "a")), guard)?;
    Ok(Pat::from(PatGuard {
        attrs: Items::new(alloc),
        pat,
        if_token: If::default(),
        guard,
    }))
}

/// `| .. | ..`
pub(crate) fn alternatives(
    alloc: Global,
    first: Result<Pattern, Error>,
    second: Result<Pattern, Error>,
) -> Result<Pattern, Error> {
    let (first, second) = both(first, second)?;
    let mut cases = Punctuated::new(alloc);
    cases.push_value(first)?;
    cases.push_punct(Or::default())?;
    cases.push_value(second)?;
    Ok(Pat::from(PatOr {
        attrs: Items::new(alloc),
        leading_vert: Some(Or::default()),
        cases,
    }))
}

fn const_pat(alloc: Global) -> Result<Pattern, Error> {
    Ok(Pat::from(const_block(alloc)?))
}

fn macro_pat(alloc: Global) -> Result<Pattern, Error> {
    Ok(Pat::from(call(alloc)?))
}

/// `#[b] a`
fn path_pat(alloc: Global) -> Result<Pattern, Error> {
    let attrs = outer(alloc, "#[b]")?;
    let path = path(alloc, "a")?;
    Ok(Pat::from(PatPath {
        attrs,
        qself: None,
        path,
    }))
}

#[test]
fn patterns_that_are_expressions_print(rt: HostRuntime) {
    let alloc = rt.alloc();
    says(&rt, shown(alloc, const_pat(alloc)), "# [b] const { }");
    says(&rt, shown(alloc, macro_pat(alloc)), "# [b] a :: b ! (c)");
    says(&rt, shown(alloc, path_pat(alloc)), "# [b] a");
}

#[test]
fn bindings_print(rt: HostRuntime) {
    let alloc = rt.alloc();
    says(&rt, shown(alloc, name(alloc, "a")), "a");
    says(&rt, shown(alloc, binding(alloc)), "ref mut a @ _");
    says(&rt, shown(alloc, guarded(alloc)), "a if true");
    let some = alternatives(alloc, name(alloc, "a"), wild(alloc));
    says(&rt, shown(alloc, some), "| a | _");
}

// ---- a pattern within

fn paren(alloc: Global) -> Result<Pattern, Error> {
    Ok(Pat::from(PatParen {
        attrs: Items::new(alloc),
        paren_token: Paren::default(),
        pat: boxed(alloc, name(alloc, "a"))?,
    }))
}

fn reference(alloc: Global) -> Result<Pattern, Error> {
    Ok(Pat::from(PatReference {
        attrs: Items::new(alloc),
        and_token: And::default(),
        mutability: Some(Mut::default()),
        pat: boxed(alloc, name(alloc, "a"))?,
    }))
}

fn typed(alloc: Global) -> Result<Pattern, Error> {
    let (pat, ty) = both(boxed(alloc, name(alloc, "a")), boxed(alloc, ty(alloc, "T")))?;
    Ok(Pat::from(PatType {
        attrs: Items::new(alloc),
        pat,
        colon_token: Colon::default(),
        ty,
    }))
}

#[test]
fn patterns_within_print(rt: HostRuntime) {
    let alloc = rt.alloc();
    says(&rt, shown(alloc, paren(alloc)), "(a)");
    says(&rt, shown(alloc, reference(alloc)), "& mut a");
    says(&rt, shown(alloc, typed(alloc)), "a : T");
}

// ---- lists

type Elements = Punctuated<Pattern, Comma>;

pub(crate) fn two(alloc: Global, first: Result<Pattern, Error>) -> Result<Elements, Error> {
    let (first, second) = both(first, rest(alloc))?;
    pair(alloc, first, second)
}

/// A list of one, with its comma.
pub(crate) fn marked<T: Drop>(
    alloc: Global,
    element: Result<T, Error>,
) -> Result<Punctuated<T, Comma>, Error> {
    let element = element?;
    let mut list = Punctuated::new(alloc);
    list.push_value(element)?;
    list.push_punct(Comma::default())?;
    Ok(list)
}

pub(crate) fn slice(alloc: Global, elems: Result<Elements, Error>) -> Result<Pattern, Error> {
    Ok(Pat::from(PatSlice {
        attrs: Items::new(alloc),
        bracket_token: Bracket::default(),
        elems: elems?,
    }))
}

pub(crate) fn tuple(alloc: Global, elems: Result<Elements, Error>) -> Result<Pattern, Error> {
    Ok(Pat::from(PatTuple {
        attrs: Items::new(alloc),
        paren_token: Paren::default(),
        elems: elems?,
    }))
}

fn tuple_struct(alloc: Global, elems: Result<Elements, Error>) -> Result<Pattern, Error> {
    let (path, elems) = both(path(alloc, "a::B"), elems)?;
    Ok(Pat::from(PatTupleStruct {
        attrs: Items::new(alloc),
        qself: None,
        path,
        paren_token: Paren::default(),
        elems,
    }))
}

#[test]
fn lists_print(rt: HostRuntime) {
    let alloc = rt.alloc();
    let one = lone(alloc, name(alloc, "a"));
    says(&rt, shown(alloc, slice(alloc, one)), "[a]");
    let some = two(alloc, name(alloc, "a"));
    says(&rt, shown(alloc, slice(alloc, some)), "[a , ..]");
    let some = two(alloc, name(alloc, "a"));
    says(
        &rt,
        shown(alloc, tuple_struct(alloc, some)),
        "a :: B (a , ..)",
    );
    let some = two(alloc, name(alloc, "a"));
    says(&rt, shown(alloc, tuple(alloc, some)), "(a , ..)");
    let some = two(alloc, glued(alloc));
    says(&rt, shown(alloc, tuple(alloc, some)), "(box 1 .., ..)");
    let some = alternatives(alloc, glued(alloc), wild(alloc));
    says(&rt, shown(alloc, some), "| box 1 ..| _");
}

#[test]
fn a_tuple_of_one_gets_its_comma(rt: HostRuntime) {
    let alloc = rt.alloc();
    let bare = lone(alloc, name(alloc, "a"));
    says(&rt, shown(alloc, tuple(alloc, bare)), "(a ,)");
    let whole = marked(alloc, name(alloc, "a"));
    says(&rt, shown(alloc, tuple(alloc, whole)), "(a ,)");
    let left = lone(alloc, rest(alloc));
    says(&rt, shown(alloc, tuple(alloc, left)), "(..)");
    let left = marked(alloc, rest(alloc));
    says(&rt, shown(alloc, tuple(alloc, left)), "(.. ,)");
    says(
        &rt,
        shown(alloc, tuple(alloc, Ok(Punctuated::new(alloc)))),
        "()",
    );
}

// ---- structs

type Fields = Punctuated<FieldPat<Nothing>, Comma>;

/// A field that is its pattern alone.
fn short(alloc: Global, text: &str) -> Result<FieldPat<Nothing>, Error> {
    let (ident, pat) = both(ident(alloc, text), boxed(alloc, name(alloc, text)))?;
    Ok(FieldPat {
        attrs: Items::new(alloc),
        member: Member::Named(ident),
        colon_token: None,
        pat,
    })
}

/// `0: _`
fn whole_field(alloc: Global) -> Result<FieldPat<Nothing>, Error> {
    Ok(FieldPat {
        attrs: Items::new(alloc),
        member: Member::Unnamed(Index::new(0, Span::none())),
        colon_token: Some(Colon::default()),
        pat: boxed(alloc, wild(alloc))?,
    })
}

pub(crate) fn with_rest(
    alloc: Global,
    fields: Result<Fields, Error>,
    rest: Result<PatRest<Nothing>, Error>,
) -> Result<Pattern, Error> {
    let (path, (fields, rest)) = both(path(alloc, "A"), both(fields, rest))?;
    Ok(Pat::from(PatStruct {
        attrs: Items::new(alloc),
        qself: None,
        path,
        brace_token: Brace::default(),
        fields,
        rest: Some(rest),
    }))
}

fn without_rest(alloc: Global, fields: Result<Fields, Error>) -> Result<Pattern, Error> {
    let (path, fields) = both(path(alloc, "A"), fields)?;
    Ok(Pat::from(PatStruct {
        attrs: Items::new(alloc),
        qself: None,
        path,
        brace_token: Brace::default(),
        fields,
        rest: None,
    }))
}

/// `x, 0: _`
pub(crate) fn two_fields(alloc: Global) -> Result<Fields, Error> {
    let (first, second) = both(short(alloc, "x"), whole_field(alloc))?;
    pair(alloc, first, second)
}

fn marked_field(alloc: Global) -> Result<Fields, Error> {
    marked(alloc, short(alloc, "x"))
}

fn plain_rest(alloc: Global) -> Result<PatRest<Nothing>, Error> {
    rest_after(alloc, Ok(Items::new(alloc)))
}

fn shown_short(alloc: Global) -> Result<String, Error> {
    printed(alloc, &short(alloc, "x")?)
}

fn shown_field(alloc: Global) -> Result<String, Error> {
    printed(alloc, &whole_field(alloc)?)
}

#[test]
fn structs_print(rt: HostRuntime) {
    let alloc = rt.alloc();
    says(&rt, shown_short(alloc), "x");
    says(&rt, shown_field(alloc), "0 : _");
    let plain = without_rest(alloc, two_fields(alloc));
    says(&rt, shown(alloc, plain), "A { x , 0 : _ }");
    let whole = with_rest(alloc, two_fields(alloc), plain_rest(alloc));
    says(&rt, shown(alloc, whole), "A { x , 0 : _ , .. }");
    let marked = with_rest(alloc, marked_field(alloc), plain_rest(alloc));
    says(&rt, shown(alloc, marked), "A { x , .. }");
    let empty = with_rest(alloc, Ok(Punctuated::new(alloc)), plain_rest(alloc));
    says(&rt, shown(alloc, empty), "A { .. }");
}

#[test]
fn outer_attributes_print(rt: HostRuntime) {
    let alloc = rt.alloc();
    let left = rest_after(alloc, outer(alloc, "#[b]"));
    says(&rt, shown(alloc, left), "# [b] ..");
    let left = rest_after(alloc, inner(alloc, "#![b]"));
    says(&rt, shown(alloc, left), "..");
    let fields = lone(alloc, short(alloc, "x"));
    let whole = with_rest(alloc, fields, rest_after(alloc, outer(alloc, "#[b]")));
    says(&rt, shown(alloc, whole), "A { x , # [b] .. }");
}

/// `A<>`, its `::` left to the print
fn angled_segment(alloc: Global, text: &str) -> Result<PathSegment<Nothing>, Error> {
    Ok(PathSegment {
        ident: ident(alloc, text)?,
        arguments: PathArguments::AngleBracketed(AngleBracketedGenericArguments {
            colon2_token: None,
            lt_token: Lt::default(),
            args: Punctuated::new(alloc),
            gt_token: Gt::default(),
        }),
    })
}

fn angled(alloc: Global) -> Result<Path<Nothing>, Error> {
    Ok(Path {
        leading_colon: None,
        segments: lone(alloc, angled_segment(alloc, "A"))?,
    })
}

fn angled_struct(alloc: Global) -> Result<Pattern, Error> {
    Ok(Pat::from(PatTupleStruct {
        attrs: Items::new(alloc),
        qself: None,
        path: angled(alloc)?,
        paren_token: Paren::default(),
        elems: Punctuated::new(alloc),
    }))
}

/// `A` with these arguments
fn with_arguments(
    alloc: Global,
    arguments: PathArguments<Nothing>,
) -> Result<PatPath<Nothing>, Error> {
    let ident = ident(alloc, "A")?;
    Ok(PatPath {
        attrs: Items::new(alloc),
        qself: None,
        path: Path::from_segment(alloc, PathSegment { ident, arguments })?,
    })
}

/// `A<>`, after `::` if so wanted
fn generic(alloc: Global, colon: Option<PathSep>) -> Result<PatPath<Nothing>, Error> {
    let arguments = PathArguments::AngleBracketed(AngleBracketedGenericArguments {
        colon2_token: colon,
        lt_token: Lt::default(),
        args: Punctuated::new(alloc),
        gt_token: Gt::default(),
    });
    with_arguments(alloc, arguments)
}

/// `A()`
fn parenthesized(alloc: Global) -> Result<PatPath<Nothing>, Error> {
    let arguments = PathArguments::Parenthesized(ParenthesizedGenericArguments {
        paren_token: Paren::default(),
        inputs: Punctuated::new(alloc),
        output: ReturnTypeOf::Default,
    });
    with_arguments(alloc, arguments)
}

#[test]
fn paths_print_as_in_an_expression(rt: HostRuntime) {
    let alloc = rt.alloc();
    says(&rt, shown(alloc, angled_struct(alloc)), "A :: < > ()");
    says(&rt, shown(alloc, generic(alloc, None)), "A :: < >");
    let colon = Some(PathSep::default());
    says(&rt, shown(alloc, generic(alloc, colon)), "A :: < >");
    says(&rt, shown(alloc, parenthesized(alloc)), "A :: ()");
}

// ---- qualified paths

/// `#[b] <Self as A>::Q { x, .. }`
fn qualified_struct(alloc: Global) -> Result<Pattern, Error> {
    let qself = qself(alloc, 1, Some(As::default()));
    let (qself, path) = both(qself, path(alloc, "A::Q"))?;
    let (attrs, fields) = both(outer(alloc, "#[b]"), lone(alloc, short(alloc, "x")))?;
    Ok(Pat::from(PatStruct {
        attrs,
        qself: Some(qself),
        path,
        brace_token: Brace::default(),
        fields,
        rest: Some(plain_rest(alloc)?),
    }))
}

fn qualified_tuple_struct(
    alloc: Global,
    qself: Result<QSelf<Nothing>, Error>,
    path: Result<Path<Nothing>, Error>,
    elems: Result<Elements, Error>,
) -> Result<Pattern, Error> {
    let (qself, (path, elems)) = both(qself, both(path, elems))?;
    Ok(Pat::from(PatTupleStruct {
        attrs: Items::new(alloc),
        qself: Some(qself),
        path,
        paren_token: Paren::default(),
        elems,
    }))
}

/// `<Self>::Q(a, ..)`
fn of_a_type(alloc: Global) -> Result<Pattern, Error> {
    let elems = two(alloc, name(alloc, "a"));
    let path = path(alloc, "::Q");
    qualified_tuple_struct(alloc, qself(alloc, 0, None), path, elems)
}

/// `A<>::Q<>`
fn angled_twice(alloc: Global) -> Result<Path<Nothing>, Error> {
    let (mut path, last) = both(angled(alloc), angled_segment(alloc, "Q"))?;
    path.segments.push_punct(PathSep::default())?;
    path.segments.push_value(last)?;
    Ok(path)
}

/// `<Self as A<>>::Q<>()`, the `::` before the last arguments left to the print
fn of_a_trait(alloc: Global) -> Result<Pattern, Error> {
    let qself = qself(alloc, 1, Some(As::default()));
    let none = Ok(Punctuated::new(alloc));
    qualified_tuple_struct(alloc, qself, angled_twice(alloc), none)
}

/// `#[b] <Self as A>::Q`
fn qualified_path(alloc: Global) -> Result<Pattern, Error> {
    let qself = qself(alloc, 1, Some(As::default()));
    let (qself, path) = both(qself, path(alloc, "A::Q"))?;
    Ok(Pat::from(PatPath {
        attrs: outer(alloc, "#[b]")?,
        qself: Some(qself),
        path,
    }))
}

#[test]
fn qualified_paths_print(rt: HostRuntime) {
    let alloc = rt.alloc();
    let whole = "# [b] < Self as A > :: Q { x , .. }";
    says(&rt, shown(alloc, qualified_struct(alloc)), whole);
    says(
        &rt,
        shown(alloc, of_a_type(alloc)),
        "< Self > :: Q (a , ..)",
    );
    let arguments = "< Self as A < > > :: Q :: < > ()";
    says(&rt, shown(alloc, of_a_trait(alloc)), arguments);
    says(
        &rt,
        shown(alloc, qualified_path(alloc)),
        "# [b] < Self as A > :: Q",
    );
}

// ---- ranges

type Bound = PatRangeBound<Nothing>;

fn literal_bound(alloc: Global, text: &str) -> Result<Bound, Error> {
    Ok(PatRangeBound::Lit(literal_pat(alloc, text)?))
}

fn const_bound(alloc: Global) -> Result<Bound, Error> {
    Ok(PatRangeBound::Const(const_block(alloc)?))
}

fn path_bound(alloc: Global, text: &str) -> Result<Bound, Error> {
    Ok(PatRangeBound::Path(PatPath {
        attrs: Items::new(alloc),
        qself: None,
        path: path(alloc, text)?,
    }))
}

/// `<Self>::X`
fn qualified_bound(alloc: Global) -> Result<Bound, Error> {
    let (qself, path) = both(qself(alloc, 0, None), path(alloc, "::X"))?;
    Ok(PatRangeBound::Path(PatPath {
        attrs: Items::new(alloc),
        qself: Some(qself),
        path,
    }))
}

/// `#[b] ..= end`
fn up_to(alloc: Global, end: Result<Bound, Error>) -> Result<Pattern, Error> {
    Ok(Pat::from(PatRange {
        attrs: outer(alloc, "#[b]")?,
        start: None,
        limits: RangeLimits::Closed(DotDotEq::default()),
        end: Some(boxed(alloc, end)?),
    }))
}

/// `start ..`
fn onwards(alloc: Global, start: Result<Bound, Error>) -> Result<Pattern, Error> {
    Ok(Pat::from(PatRange {
        attrs: Items::new(alloc),
        start: Some(boxed(alloc, start)?),
        limits: RangeLimits::HalfOpen(DotDot::default()),
        end: None,
    }))
}

fn between(
    alloc: Global,
    start: Result<Bound, Error>,
    end: Result<Bound, Error>,
) -> Result<Pattern, Error> {
    let (start, end) = both(boxed(alloc, start), boxed(alloc, end))?;
    Ok(Pat::from(PatRange {
        attrs: Items::new(alloc),
        start: Some(start),
        limits: RangeLimits::Closed(DotDotEq::default()),
        end: Some(end),
    }))
}

#[test]
fn ranges_print(rt: HostRuntime) {
    let alloc = rt.alloc();
    let both = between(alloc, path_bound(alloc, "a"), literal_bound(alloc, "1"));
    says(&rt, shown(alloc, both), "a ..= 1");
    let both = between(alloc, qualified_bound(alloc), literal_bound(alloc, "5"));
    says(&rt, shown(alloc, both), "< Self > :: X ..= 5");
    let end = up_to(alloc, const_bound(alloc));
    says(&rt, shown(alloc, end), "# [b] ..= # [b] const { }");
    let end = up_to(alloc, qualified_bound(alloc));
    says(&rt, shown(alloc, end), "# [b] ..= < Self > :: X");
    let start = onwards(alloc, literal_bound(alloc, "-1"));
    says(&rt, shown(alloc, start), "- 1 ..");
}
