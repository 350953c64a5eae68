//! The head of the implementation that a derive macro writes.

use std::alloc::{AllocError, Global};
use syn_mid::verbatim::{Generics, WhereClause};
use token_core::token::{For, Impl};
use token_core::{Error, Ident, ParseStream, ToTokens, TokenStream};

/// What a derive macro has to know of a declaration.
#[derive(Drop)]
pub struct Declared {
    pub name: Ident,
    pub generics: Generics,
}

/// Reads a name, its generics, and a where clause that may be there.
pub fn parse_declared(
    alloc: Global,
    input: &mut ParseStream<'_>,
) -> Result<Declared, Error> {
    let name = input.parse::<Ident>(alloc)?;
    let mut generics = input.parse::<Generics>(alloc)?;
    generics.where_clause = WhereClause::parse_optional(alloc, input)?;
    Ok(Declared { name, generics })
}

/// `impl<..> Trait for Name<..> where ..`
pub fn head(alloc: Global, of: &Ident, declared: &Declared) -> Result<TokenStream, AllocError> {
    let (impl_generics, type_generics, where_clause) = declared.generics.split_for_impl();
    let mut out = TokenStream::new(alloc);
    Impl::default().to_tokens(alloc, &mut out)?;
    impl_generics.to_tokens(alloc, &mut out)?;
    of.to_tokens(alloc, &mut out)?;
    For::default().to_tokens(alloc, &mut out)?;
    declared.name.to_tokens(alloc, &mut out)?;
    type_generics.to_tokens(alloc, &mut out)?;
    where_clause.to_tokens(alloc, &mut out)?;
    Ok(out)
}
