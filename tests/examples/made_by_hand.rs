//! Types made by hand, and printed.

use std::alloc::Global;
use syn_mid::verbatim::{Expr, ModStyle, Type, TypeArray, TypePath, VerbatimExpr};
use token_core::token::{Bracket, Semi};
use token_core::{Boxed, Error, Items, ToTokens, TokenStream};
use token_text::{lex, read_str_with, text_of};

/// A type by its path.
pub fn path(alloc: Global, text: &str) -> Result<Type, Error> {
    Ok(Type::from(TypePath {
        attrs: Items::new(alloc),
        qself: None,
        path: read_str_with(alloc, ModStyle::new(), text)?,
    }))
}

/// An array of a type, with a length as it is written.
pub fn array(alloc: Global, elem: Type, len: &str) -> Result<Type, Error> {
    Ok(Type::from(TypeArray {
        attrs: Items::new(alloc),
        bracket_token: Bracket::default(),
        elem: Boxed::new(alloc, elem)?,
        semi_token: Semi::default(),
        len: Expr::Other(VerbatimExpr {
            tokens: lex(alloc, len)?,
        }),
    }))
}

/// The text of its print.
pub fn printed<T: ToTokens>(alloc: Global, tree: &T) -> Result<String, Error> {
    let mut out = TokenStream::new(alloc);
    tree.to_tokens(alloc, &mut out)?;
    Ok(text_of(alloc, &out)?)
}
