//! What parameters and captures made by hand print, which parameters the iterators give, and the where clause that is lent.

use crate::nothing::Nothing;
use std::alloc::Global;
use std::fmt::Write;
use std::process::Abort;
use syn_mid::generics::{ConstParams, Lifetimes, TypeParams};
use syn_mid::{
    Arguments, BoundLifetimes, CapturedParam, ConstParam, Expr, ExprLit, GenericParam, Generics,
    LifetimeParam, ModStyle, ParseInner, ParseOuter, PathOf, PreciseCapture, PredicateLifetime,
    PredicateType, TraitBound, TraitBoundModifiers, Type, TypeParam, TypeParamBound, TypePathOf,
    WhereClause, WherePredicate,
};
use token_core::token::{Colon, Comma, Const, Eq, For, Gt, Lt, Paren, Plus, Question, Use, Where};
use token_core::{
    Error, Ident, Items, Lifetime, Lit, Punctuated, Span, ToTokens, TokenStream, read_all,
    read_all_with,
};
use token_text::{lex, text_of};

type Param = GenericParam<Nothing>;

type Bound = TypeParamBound<Nothing>;

/// It answers this; of a refusal, its text.
pub(crate) fn says(rt: &impl Abort, answer: Result<String, Error>, wanted: &str) {
    match answer {
        Ok(text) => assert_eq!(rt; text.as_str(), wanted),
        Err(error) => panic!(rt; "refused: {}", error.text()),
    }
}

/// It is so, and no refusal.
pub(crate) fn holds(rt: &impl Abort, answer: Result<bool, Error>) {
    match answer {
        Ok(is_so) => assert!(rt; is_so),
        Err(error) => panic!(rt; "refused: {}", error.text()),
    }
}

/// What was made; stops the test at a refusal.
fn got<T: Drop>(rt: &impl Abort, made: Result<T, Error>) -> T {
    match made {
        Ok(value) => value,
        Err(error) => panic!(rt; "refused: {}", error.text()),
    }
}

/// Both, or the first refusal.
pub(crate) fn both<A: Drop, B: Drop>(
    first: Result<A, Error>,
    second: Result<B, Error>,
) -> Result<(A, B), Error> {
    Ok((first?, second?))
}

/// A list of one.
pub(crate) fn lone<T: Drop, P: Drop>(
    alloc: Global,
    value: Result<T, Error>,
) -> Result<Punctuated<T, P>, Error> {
    let value = value?;
    let mut list = Punctuated::new(alloc);
    list.push_value(value)?;
    Ok(list)
}

pub(crate) fn printed<T: ToTokens>(alloc: Global, tree: &T) -> Result<String, Error> {
    let mut out = TokenStream::new(alloc);
    tree.to_tokens(alloc, &mut out)?;
    Ok(text_of(alloc, &out)?)
}

pub(crate) fn ident(alloc: Global, text: &str) -> Result<Ident, Error> {
    Ok(Ident::new(alloc, text, Span::none())?)
}

pub(crate) fn lifetime(alloc: Global, text: &str) -> Result<Lifetime, Error> {
    Ok(Lifetime::new(Span::none(), ident(alloc, text)?))
}

pub(crate) fn path<A: Arguments>(alloc: Global, text: &str) -> Result<PathOf<A>, Error> {
    let tokens = lex(alloc, text)?;
    read_all_with(alloc, ModStyle::<A>::new(), &tokens)
}

pub(crate) fn ty(alloc: Global, text: &str) -> Result<Type<Nothing>, Error> {
    Ok(Type::Path(TypePathOf {
        attrs: Items::new(alloc),
        qself: None,
        path: path(alloc, text)?,
    }))
}

/// A literal without attributes.
pub(crate) fn literal(alloc: Global, text: &str) -> Result<Expr<Nothing>, Error> {
    let lit = read_all::<Lit>(alloc, &lex(alloc, text)?)?;
    Ok(Expr::Lit(ExprLit {
        attrs: Items::new(alloc),
        lit,
    }))
}

pub(crate) fn two<T: Drop>(
    alloc: Global,
    first: T,
    second: T,
) -> Result<Punctuated<T, Plus>, Error> {
    let mut list = Punctuated::new(alloc);
    list.push_value(first)?;
    list.push_punct(Plus::default())?;
    list.push_value(second)?;
    Ok(list)
}

pub(crate) fn pair<T: Drop>(
    alloc: Global,
    first: T,
    second: T,
) -> Result<Punctuated<T, Comma>, Error> {
    let mut list = Punctuated::new(alloc);
    list.push_value(first)?;
    list.push_punct(Comma::default())?;
    list.push_value(second)?;
    Ok(list)
}

fn three<T: Drop>(
    alloc: Global,
    first: T,
    second: T,
    third: T,
) -> Result<Punctuated<T, Comma>, Error> {
    let mut list = Punctuated::new(alloc);
    list.push_value(first)?;
    list.push_punct(Comma::default())?;
    list.push_value(second)?;
    list.push_punct(Comma::default())?;
    list.push_value(third)?;
    Ok(list)
}

// ---- captures

fn captured(alloc: Global, text: &str) -> Result<CapturedParam, Error> {
    Ok(CapturedParam::Ident(ident(alloc, text)?))
}

fn captured_lifetime(alloc: Global, text: &str) -> Result<CapturedParam, Error> {
    Ok(CapturedParam::Lifetime(lifetime(alloc, text)?))
}

fn capture(
    alloc: Global,
    params: Result<Punctuated<CapturedParam, Comma>, Error>,
) -> Result<String, Error> {
    let capture = PreciseCapture {
        use_token: Use::default(),
        lt_token: Lt::default(),
        params: params?,
        gt_token: Gt::default(),
    };
    printed(alloc, &capture)
}

/// `T, 'a`
fn lifetime_last(alloc: Global) -> Result<Punctuated<CapturedParam, Comma>, Error> {
    pair(alloc, captured(alloc, "T")?, captured_lifetime(alloc, "a")?)
}

/// `T, 'a, U`
fn lifetime_between(alloc: Global) -> Result<Punctuated<CapturedParam, Comma>, Error> {
    let first = captured(alloc, "T")?;
    let second = captured_lifetime(alloc, "a")?;
    three(alloc, first, second, captured(alloc, "U")?)
}

/// `'a, 'b`
fn lifetimes_alone(alloc: Global) -> Result<Punctuated<CapturedParam, Comma>, Error> {
    let first = captured_lifetime(alloc, "a")?;
    pair(alloc, first, captured_lifetime(alloc, "b")?)
}

#[test]
fn captures_print_lifetimes_first(rt: HostRuntime) {
    let alloc = rt.alloc();
    says(
        &rt,
        capture(alloc, lifetime_last(alloc)),
        "use < 'a , T , >",
    );
    says(
        &rt,
        capture(alloc, lifetime_between(alloc)),
        "use < 'a , T , U >",
    );
    says(
        &rt,
        capture(alloc, lifetimes_alone(alloc)),
        "use < 'a , 'b >",
    );
    says(&rt, capture(alloc, Ok(Punctuated::new(alloc))), "use < >");
}

// ---- parameters

fn lifetime_param(alloc: Global, text: &str) -> Result<Param, Error> {
    let lifetime = lifetime(alloc, text)?;
    Ok(GenericParam::from(LifetimeParam::new(alloc, lifetime)))
}

fn named(alloc: Global, text: &str) -> Result<TypeParam<Nothing>, Error> {
    Ok(TypeParam::from_ident(alloc, ident(alloc, text)?))
}

/// `const N: usize` with a default
pub(crate) fn const_param(
    alloc: Global,
    default: Option<(Eq, Expr<Nothing>)>,
) -> Result<ConstParam<Nothing>, Error> {
    Ok(ConstParam {
        attrs: Items::new(alloc),
        const_token: Const::default(),
        ident: ident(alloc, "N")?,
        colon_token: Colon::default(),
        ty: ty(alloc, "usize")?,
        default,
    })
}

/// `'a: 'b + 'c`, its colon left to the print
fn bounded_lifetime(alloc: Global) -> Result<String, Error> {
    let mut param = LifetimeParam::<Nothing>::new(alloc, lifetime(alloc, "a")?);
    param.bounds = two(alloc, lifetime(alloc, "b")?, lifetime(alloc, "c")?)?;
    printed(alloc, &param)
}

/// `'a:` without a bound
fn lifetime_colon(alloc: Global) -> Result<String, Error> {
    let mut param = LifetimeParam::<Nothing>::new(alloc, lifetime(alloc, "a")?);
    param.colon_token = Some(Colon::default());
    printed(alloc, &param)
}

fn const_literal(alloc: Global) -> Result<String, Error> {
    let default = Some((Eq::default(), literal(alloc, "-1")?));
    printed(alloc, &const_param(alloc, default)?)
}

fn const_other(alloc: Global) -> Result<String, Error> {
    let default = Some((Eq::default(), Expr::Other(Nothing {})));
    printed(alloc, &const_param(alloc, default)?)
}

/// A lifetime parameter after the attributes of a text.
fn with_outer(alloc: Global, text: &str) -> Result<String, Error> {
    let mut param = LifetimeParam::<Nothing>::new(alloc, lifetime(alloc, "a")?);
    let tokens = lex(alloc, text)?;
    param.attrs = read_all_with(alloc, ParseOuter::<Nothing>::new(), &tokens)?;
    printed(alloc, &param)
}

fn with_inner(alloc: Global, text: &str) -> Result<String, Error> {
    let mut param = LifetimeParam::<Nothing>::new(alloc, lifetime(alloc, "a")?);
    let tokens = lex(alloc, text)?;
    param.attrs = read_all_with(alloc, ParseInner::<Nothing>::new(), &tokens)?;
    printed(alloc, &param)
}

#[test]
fn parameters_print(rt: HostRuntime) {
    let alloc = rt.alloc();
    says(&rt, bounded_lifetime(alloc), "'a : 'b + 'c");
    says(&rt, lifetime_colon(alloc), "'a");
    says(&rt, const_literal(alloc), "const N : usize = - 1");
    says(&rt, const_other(alloc), "const N : usize = { }");
    says(&rt, with_outer(alloc, "#[b]"), "# [b] 'a");
    says(&rt, with_inner(alloc, "#![b]"), "'a");
}

/// `Clone`, in parentheses and after a `?` where it is asked for
fn clone_bound(alloc: Global, whole: bool) -> Result<Bound, Error> {
    Ok(TypeParamBound::from(TraitBound {
        paren_token: option(whole, Paren::default()),
        lifetimes: None,
        modifiers: TraitBoundModifiers::default(),
        maybe: option(whole, Question::default()),
        path: path(alloc, "Clone")?,
    }))
}

fn option<T: Drop>(there: bool, value: T) -> Option<T> {
    if there { Some(value) } else { None }
}

/// A binder of one lifetime.
pub(crate) fn binder(alloc: Global, text: &str) -> Result<BoundLifetimes<Nothing>, Error> {
    Ok(BoundLifetimes {
        for_token: For::default(),
        lt_token: Lt::default(),
        lifetimes: lone(alloc, lifetime_param(alloc, text))?,
        gt_token: Gt::default(),
    })
}

/// `T: Clone = u8`, its colon left to the print
fn bounded(alloc: Global) -> Result<TypeParam<Nothing>, Error> {
    let bounds = lone(alloc, clone_bound(alloc, false));
    let (ident, (bounds, ty)) = both(ident(alloc, "T"), both(bounds, ty(alloc, "u8")))?;
    Ok(TypeParam {
        attrs: Items::new(alloc),
        ident,
        colon_token: None,
        bounds,
        default: Some((Eq::default(), ty)),
    })
}

/// `for<'b> A`
fn bound_to(alloc: Global) -> Result<Bound, Error> {
    let (binder, path) = both(binder(alloc, "b"), path(alloc, "A"))?;
    Ok(TypeParamBound::Trait(TraitBound {
        paren_token: None,
        lifetimes: Some(binder),
        modifiers: TraitBoundModifiers::default(),
        maybe: None,
        path,
    }))
}

fn captures(alloc: Global) -> Result<Bound, Error> {
    Ok(TypeParamBound::from(PreciseCapture {
        use_token: Use::default(),
        lt_token: Lt::default(),
        params: lifetime_last(alloc)?,
        gt_token: Gt::default(),
    }))
}

pub(crate) fn shown<T: ToTokens + Drop>(
    alloc: Global,
    tree: Result<T, Error>,
) -> Result<String, Error> {
    printed(alloc, &tree?)
}

/// Whether it prints so.
pub(crate) fn prints_as<T: ToTokens + Drop>(
    alloc: Global,
    tree: Result<T, Error>,
    wanted: Result<String, Error>,
) -> Result<bool, Error> {
    let (found, wanted) = both(shown(alloc, tree), wanted)?;
    Ok(found.as_str() == wanted.as_str())
}

fn held(alloc: Global, text: &str) -> Result<Bound, Error> {
    Ok(TypeParamBound::Verbatim(lex(alloc, text)?))
}

pub(crate) fn lifetime_bound(alloc: Global) -> Result<Bound, Error> {
    Ok(TypeParamBound::from(lifetime(alloc, "a")?))
}

#[test]
fn bounds_print(rt: HostRuntime) {
    let alloc = rt.alloc();
    says(&rt, shown(alloc, bounded(alloc)), "T : Clone = u8");
    says(&rt, shown(alloc, clone_bound(alloc, true)), "(? Clone)");
    says(&rt, shown(alloc, bound_to(alloc)), "for < 'b > A");
    says(&rt, shown(alloc, binder(alloc, "b")), "for < 'b >");
    says(&rt, shown(alloc, lifetime_bound(alloc)), "'a");
    says(&rt, shown(alloc, captures(alloc)), "use < 'a , T , >");
    says(&rt, shown(alloc, held(alloc, "~ const A")), "~ const A");
}

// ---- where clauses

/// `for<'b> T: Clone`
fn bounded_type(alloc: Global) -> Result<PredicateType<Nothing>, Error> {
    let bounds = lone(alloc, clone_bound(alloc, false));
    let (binder, (bounded_ty, bounds)) = both(binder(alloc, "b"), both(ty(alloc, "T"), bounds))?;
    Ok(PredicateType {
        attrs: Items::new(alloc),
        lifetimes: Some(binder),
        bounded_ty,
        colon_token: Colon::default(),
        bounds,
    })
}

/// `where 'a:, for<'b> T: Clone`
pub(crate) fn clause(alloc: Global) -> Result<WhereClause<Nothing>, Error> {
    let (first, second) = both(lone_predicate(alloc), bounded_type(alloc))?;
    Ok(WhereClause {
        where_token: Where::default(),
        predicates: pair(
            alloc,
            WherePredicate::from(first),
            WherePredicate::from(second),
        )?,
    })
}

fn empty_clause(alloc: Global) -> Result<WhereClause<Nothing>, Error> {
    Ok(WhereClause {
        where_token: Where::default(),
        predicates: Punctuated::new(alloc),
    })
}

fn shown_clause(alloc: Global) -> Result<String, Error> {
    printed(alloc, &clause(alloc)?)
}

fn shown_empty_clause(alloc: Global) -> Result<String, Error> {
    printed(alloc, &empty_clause(alloc)?)
}

#[test]
fn where_clauses_print(rt: HostRuntime) {
    let alloc = rt.alloc();
    let whole = "where 'a : , for < 'b > T : Clone";
    says(&rt, shown_clause(alloc), whole);
    says(&rt, shown_empty_clause(alloc), "");
}

/// `'a:` without a bound
fn lone_predicate(alloc: Global) -> Result<PredicateLifetime<Nothing>, Error> {
    Ok(PredicateLifetime {
        attrs: Items::new(alloc),
        lifetime: lifetime(alloc, "a")?,
        colon_token: Colon::default(),
        bounds: Punctuated::new(alloc),
    })
}

fn as_predicate(alloc: Global) -> Result<WherePredicate<Nothing>, Error> {
    Ok(WherePredicate::from(lone_predicate(alloc)?))
}

fn shown_predicate(alloc: Global) -> Result<String, Error> {
    printed(alloc, &lone_predicate(alloc)?)
}

fn number(alloc: Global, count: usize) -> Result<String, Error> {
    let mut out = String::new(alloc);
    write!(out, "{count}")?;
    Ok(out)
}

/// How many predicates the clause has that is lent first, and then, with one put there, again.
fn lent_twice(alloc: Global) -> Result<String, Error> {
    let mut generics = Generics::<Nothing>::default(alloc);
    let mut out = number(alloc, generics.make_where_clause(alloc).predicates.len())?;
    generics.make_where_clause(alloc).predicates = lone(alloc, as_predicate(alloc))?;
    let again = generics.make_where_clause(alloc).predicates.len();
    write!(out, " {again}")?;
    Ok(out)
}

#[test]
fn where_clauses_are_lent(rt: HostRuntime) {
    let alloc = rt.alloc();
    says(&rt, shown_predicate(alloc), "'a :");
    says(&rt, lent_twice(alloc), "0 1");
}

// ---- iterators

/// `<T, 'a, const N: usize, U, 'b>`
fn mixed(alloc: Global) -> Result<Generics<Nothing>, Error> {
    let mut generics = Generics::default(alloc);
    let mut params = three(
        alloc,
        Param::from(named(alloc, "T")?),
        lifetime_param(alloc, "a")?,
        Param::from(const_param(alloc, None)?),
    )?;
    params.push_punct(Comma::default())?;
    params.push_value(Param::from(named(alloc, "U")?))?;
    params.push_punct(Comma::default())?;
    params.push_value(lifetime_param(alloc, "b")?)?;
    generics.params = params;
    Ok(generics)
}

fn type_names(alloc: Global, params: TypeParams<'_, Nothing>) -> Result<String, Error> {
    let mut out = String::new(alloc);
    for param in params {
        write!(out, "{} ", param.ident.text())?;
    }
    Ok(out)
}

fn const_names(alloc: Global, params: ConstParams<'_, Nothing>) -> Result<String, Error> {
    let mut out = String::new(alloc);
    for param in params {
        write!(out, "{} ", param.ident.text())?;
    }
    Ok(out)
}

fn lifetime_names(alloc: Global, params: Lifetimes<'_, Nothing>) -> Result<String, Error> {
    let mut out = String::new(alloc);
    for param in params {
        write!(out, "{} ", param.lifetime.ident.text())?;
    }
    Ok(out)
}

/// Gives each parameter the name of its kind, through the iterators for writing.
fn renamed(alloc: Global, generics: &mut Generics<Nothing>) -> Result<(), Error> {
    for param in generics.type_params_mut() {
        param.ident = ident(alloc, "Type")?;
    }
    for param in generics.const_params_mut() {
        param.ident = ident(alloc, "CONST")?;
    }
    for param in generics.lifetimes_mut() {
        param.lifetime.ident = ident(alloc, "life")?;
    }
    Ok(())
}

#[test]
fn iterators_give_their_kind(rt: HostRuntime) {
    let alloc = rt.alloc();
    let generics = got(&rt, mixed(alloc));
    says(&rt, type_names(alloc, generics.type_params()), "T U ");
    says(&rt, const_names(alloc, generics.const_params()), "N ");
    says(&rt, lifetime_names(alloc, generics.lifetimes()), "a b ");
}

#[test]
fn iterators_of_no_parameters_end(rt: HostRuntime) {
    let alloc = rt.alloc();
    let generics = Generics::<Nothing>::default(alloc);
    says(&rt, type_names(alloc, generics.type_params()), "");
    says(&rt, const_names(alloc, generics.const_params()), "");
    says(&rt, lifetime_names(alloc, generics.lifetimes()), "");
}

#[test]
fn parameters_are_lent_for_writing(rt: HostRuntime) {
    let alloc = rt.alloc();
    let mut generics = got(&rt, mixed(alloc));
    got(&rt, renamed(alloc, &mut generics));
    says(
        &rt,
        printed(alloc, &generics),
        "< 'life , 'life , Type , const CONST : usize , Type , >",
    );
}

// ---- views

/// `T: Clone = u8, 'a, const N: usize = 1`
fn params(alloc: Global) -> Result<Punctuated<Param, Comma>, Error> {
    let ((first, second), third) = both(
        both(bounded(alloc), lifetime_param(alloc, "a")),
        const_one(alloc),
    )?;
    three(alloc, Param::from(first), second, Param::from(third))
}

fn const_one(alloc: Global) -> Result<ConstParam<Nothing>, Error> {
    let default = Some((Eq::default(), literal(alloc, "1")?));
    const_param(alloc, default)
}

/// Those parameters, with a where clause.
pub(crate) fn whole(alloc: Global) -> Result<Generics<Nothing>, Error> {
    let (params, clause) = both(params(alloc), clause(alloc))?;
    Ok(Generics {
        lt_token: None,
        params,
        gt_token: None,
        where_clause: Some(clause),
    })
}

fn impl_generics(alloc: Global, generics: &Generics<Nothing>) -> Result<String, Error> {
    printed(alloc, &generics.split_for_impl().0)
}

fn type_generics(alloc: Global, generics: &Generics<Nothing>) -> Result<String, Error> {
    printed(alloc, &generics.split_for_impl().1)
}

fn turbofish(alloc: Global, generics: &Generics<Nothing>) -> Result<String, Error> {
    printed(alloc, &generics.split_for_impl().1.as_turbofish())
}

/// How many predicates the where clause has that is split off.
fn split_clause(alloc: Global, generics: &Generics<Nothing>) -> Result<String, Error> {
    match generics.split_for_impl().2 {
        Some(clause) => number(alloc, clause.predicates.len()),
        None => Ok(String::new(alloc)),
    }
}

fn shown_whole(alloc: Global) -> Result<String, Error> {
    printed(alloc, &whole(alloc)?)
}

fn shown_default(alloc: Global) -> Result<String, Error> {
    printed(alloc, &Generics::<Nothing>::default(alloc))
}

#[test]
fn generics_print_lifetimes_first(rt: HostRuntime) {
    let alloc = rt.alloc();
    let all = "< 'a , T : Clone = u8 , const N : usize = 1 >";
    says(&rt, shown_whole(alloc), all);
    says(&rt, shown_default(alloc), "");
}

#[test]
fn views_print(rt: HostRuntime) {
    let alloc = rt.alloc();
    let generics = got(&rt, whole(alloc));
    let head = "< 'a , T : Clone , const N : usize >";
    says(&rt, impl_generics(alloc, &generics), head);
    says(&rt, type_generics(alloc, &generics), "< 'a , T , N >");
    says(&rt, turbofish(alloc, &generics), ":: < 'a , T , N >");
    says(&rt, split_clause(alloc, &generics), "2");
}

/// Each view is cloned, over attributes and expressions that are not `Clone`.
fn cloned(alloc: Global, generics: &Generics<Nothing>) -> Result<String, Error> {
    let (impl_generics, type_generics, _) = generics.split_for_impl();
    let mut all = printed(alloc, &impl_generics.clone()?)?;
    all.push_str(printed(alloc, &type_generics.clone()?)?.as_str())?;
    all.push_str(printed(alloc, &type_generics.as_turbofish().clone()?)?.as_str())?;
    Ok(all)
}

#[test]
fn views_are_cloned(rt: HostRuntime) {
    let alloc = rt.alloc();
    let generics = got(&rt, whole(alloc));
    let all = "< 'a , T : Clone , const N : usize >< 'a , T , N >:: < 'a , T , N >";
    says(&rt, cloned(alloc, &generics), all);
}

#[test]
fn views_without_parameters_print_nothing(rt: HostRuntime) {
    let alloc = rt.alloc();
    let generics = Generics::default(alloc);
    says(&rt, impl_generics(alloc, &generics), "");
    says(&rt, type_generics(alloc, &generics), "");
    says(&rt, turbofish(alloc, &generics), "");
    says(&rt, split_clause(alloc, &generics), "");
}
