//! The options of a field as a struct, each given at most once.

use std::alloc::Global;
use syn_mid::meta::ParseNestedMeta;
use syn_mid::verbatim::{Attribute, Path};
use token_core::{ByFn, Error, LitStr, ParseStream};
use token_text::{lit_str_value, read_lit_str, read_str_with};

/// What `#[field(rename = "..", with = "..", skip)]` says of a field.
#[derive(Drop)]
pub struct Options {
    pub rename: Option<String>,
    pub with: Option<Path>,
    pub skip: bool,
}

/// The options in the attributes of a field, `#[field(..)]`; other attributes are passed over.
pub fn options(alloc: Global, text: &str) -> Result<Options, Error> {
    read_str_with(alloc, ByFn(parse_options), text)
}

fn parse_options(alloc: Global, input: &mut ParseStream<'_>) -> Result<Options, Error> {
    let mut options = Options {
        rename: None,
        with: None,
        skip: false,
    };
    let attrs = Attribute::parse_outer(alloc, input)?;
    for attr in attrs.iter() {
        if attr.path().is_ident("field") {
            let logic = |alloc: Global, meta: &mut ParseNestedMeta<'_>| -> Result<(), Error> {
                parse_option(alloc, meta, &mut options)
            };
            attr.parse_nested_meta(alloc, logic)?;
        }
    }
    Ok(options)
}

/// Reads one option; an unknown one, and one that was given before, is refused where it stands.
fn parse_option(
    alloc: Global,
    meta: &mut ParseNestedMeta<'_>,
    options: &mut Options,
) -> Result<(), Error> {
    if meta.path.is_ident("rename") {
        once(alloc, meta, options.rename.is_some())?;
        let lit = meta.value(alloc)?.parse::<LitStr>(alloc)?;
        options.rename = Some(lit_str_value(alloc, &lit)?);
    } else if meta.path.is_ident("with") {
        once(alloc, meta, options.with.is_some())?;
        let lit = meta.value(alloc)?.parse::<LitStr>(alloc)?;
        options.with = Some(read_lit_str::<Path>(alloc, &lit)?);
    } else if meta.path.is_ident("skip") {
        once(alloc, meta, options.skip)?;
        options.skip = true;
    } else {
        return Err(meta.error(alloc, "unknown option"));
    }
    Ok(())
}

fn once(alloc: Global, meta: &ParseNestedMeta<'_>, is_set: bool) -> Result<(), Error> {
    if is_set {
        Err(meta.error(alloc, "option given twice"))
    } else {
        Ok(())
    }
}
