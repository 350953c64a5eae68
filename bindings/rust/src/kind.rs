//! The kinds of refusals.

/// Why a text was not read. More kinds may come.
#[derive(Clone, Copy, Debug, PartialEq, Eq, Hash)]
#[non_exhaustive]
pub enum Kind {
    /// There is no reader of that name.
    UnknownReader,
    /// A growth was refused.
    OutOfMemory,
    /// Another token was expected.
    Expected,
    /// Something is left over.
    Unexpected,
    /// The caller's own.
    Custom,
    /// A group was expected.
    ExpectedDelimiter,
    /// A path ends in `::`.
    ExpectedPathSegment,
    /// A path is no lone identifier.
    ExpectedPathIdent,
    /// An attribute has no arguments in parentheses.
    ExpectedAttributeArguments,
    /// An attribute has a value in place of arguments.
    ExpectedParentheses,
    /// A meta is more than a path.
    TokenInAttribute,
    /// A meta has no arguments.
    ExpectedMetaArguments,
    /// A meta has a value in place of arguments.
    ExpectedParenthesis,
    /// A meta has no value.
    ExpectedMetaValue,
    /// A meta has arguments in place of a value.
    ExpectedEquals,
    /// An attribute stands as an attribute's value.
    AttributeInAttribute,
    /// A list of properties ends where one is needed.
    ExpectedNestedAttribute,
    /// A literal stands where a property begins.
    LiteralInNestedAttribute,
    /// No property begins here.
    TokenInNestedAttribute,
    /// A bracket is not closed.
    UnclosedDelimiter,
    /// A bracket closes none.
    UnexpectedClosingDelimiter,
    /// No token begins here.
    UnknownToken,
    /// A literal or a comment doesn't end.
    UnterminatedToken,
    /// A comment is documentation.
    DocComment,
    /// A number goes on as none does.
    MalformedNumber,
    /// A trait bound has both `for<..>` and `?`.
    BinderWithQuestion,
    /// A where clause goes on as generics do.
    GenericsOnWhere,
    /// A bound is `use<..>` where none may be.
    CaptureNotAllowed,
    /// A bound is `[const]` where none may be.
    ConditionalConstNotAllowed,
    /// A bound is `const` where none may be.
    ConstNotAllowed,
    /// A trait object has lifetimes alone.
    NoTraitInObject,
    /// The bounds after `impl` name no trait.
    NoTraitInImpl,
    /// A range ends in `..=`.
    RangeWithoutEnd,
    /// An element of a slice's pattern is a range that lacks a bound.
    OpenRangeInSlice,
    /// A trait bound has `const`, `[const]` or `async` where none is supported.
    BoundModifiersNotSupported,
    /// A text is nested deeper than its limit.
    NestedTooDeep,
    /// A kind that this crate doesn't know, of a library that is newer than it.
    Other,
}

/// The numbers of refusals of a text begin here.
const REFUSALS: usize = 16;

/// The refusals of a text, in the order of their numbers.
const KINDS: [Kind; 35] = [
    Kind::OutOfMemory,
    Kind::Expected,
    Kind::Unexpected,
    Kind::Custom,
    Kind::ExpectedDelimiter,
    Kind::ExpectedPathSegment,
    Kind::ExpectedPathIdent,
    Kind::ExpectedAttributeArguments,
    Kind::ExpectedParentheses,
    Kind::TokenInAttribute,
    Kind::ExpectedMetaArguments,
    Kind::ExpectedParenthesis,
    Kind::ExpectedMetaValue,
    Kind::ExpectedEquals,
    Kind::AttributeInAttribute,
    Kind::ExpectedNestedAttribute,
    Kind::LiteralInNestedAttribute,
    Kind::TokenInNestedAttribute,
    Kind::UnclosedDelimiter,
    Kind::UnexpectedClosingDelimiter,
    Kind::UnknownToken,
    Kind::UnterminatedToken,
    Kind::DocComment,
    Kind::MalformedNumber,
    Kind::BinderWithQuestion,
    Kind::GenericsOnWhere,
    Kind::CaptureNotAllowed,
    Kind::ConditionalConstNotAllowed,
    Kind::ConstNotAllowed,
    Kind::NoTraitInObject,
    Kind::NoTraitInImpl,
    Kind::RangeWithoutEnd,
    Kind::OpenRangeInSlice,
    Kind::BoundModifiersNotSupported,
    Kind::NestedTooDeep,
];

impl Kind {
    /// The kind of a number, as `bindings/c/kulojenta.h` has it.
    pub(crate) fn of(number: u32) -> Kind {
        let refusal = (number as usize).checked_sub(REFUSALS);
        match (number, refusal.and_then(|it| KINDS.get(it))) {
            (1, _) => Kind::UnknownReader,
            (_, Some(kind)) => *kind,
            _ => Kind::Other,
        }
    }

    /// Whether it is one of a text, and has a place there.
    pub(crate) fn has_place(self) -> bool {
        !matches!(self, Kind::UnknownReader | Kind::OutOfMemory)
    }
}

#[cfg(test)]
mod tests {
    use super::{Kind, KINDS};

    #[test]
    fn kinds_have_their_numbers() {
        assert_eq!(Kind::of(1), Kind::UnknownReader);
        for (kind, number) in KINDS.iter().zip(16..) {
            assert_eq!(Kind::of(number), *kind);
        }
        for number in [0, 2, 15, 16 + KINDS.len() as u32, u32::MAX] {
            assert_eq!(Kind::of(number), Kind::Other);
        }
    }
}
