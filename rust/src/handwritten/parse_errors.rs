//! The places of parse errors, and the errors of the parser of cedar-policy-core that a validation of a template also
//! returns.
use crate::ast::{EntityUID, Escaped, NonEmpty, Slot, TemplateValidationError};
use crate::parser::err::ParseErrors;
use std::error::Error;
use std::fmt;
use std::sync::Arc;

/// What a text should have at a place.
#[derive(Clone, Copy, Debug, PartialEq, Eq, Hash)]
#[non_exhaustive]
pub enum Expected {
    /// An identifier: a letter or `_`, and then letters, digits and `_`. The text has another character, or ends.
    Identifier,
    /// A further character of an identifier: a letter, a digit or `_`.
    IdentifierPart,
    /// An identifier that is not a reserved word. The text has a reserved word.
    Unreserved,
    /// The mark `::"` between the type and the eid of a uid.
    Mark,
    /// The final `"` of a uid.
    Quote,
    /// The eid of a uid as it is printed. The text has another spelling, or an escape that does not exist.
    PrintedEid,
}

/// Writes what is expected, as a part of a sentence.
impl fmt::Display for Expected {
    fn fmt(&self, f: &mut fmt::Formatter<'_>) -> fmt::Result {
        f.write_str(match self {
            Expected::Identifier => "an identifier",
            Expected::IdentifierPart => "a letter, a digit or `_`",
            Expected::Unreserved => "an identifier that is not reserved",
            Expected::Mark => "`::\"` after the entity type",
            Expected::Quote => "`\"` at the end",
            Expected::PrintedEid => "the eid as it is printed",
        })
    }
}

/// The place at which a text is not as expected.
#[derive(Clone, Copy, Debug, PartialEq, Eq, Hash)]
pub struct ParsePlace {
    offset: usize,
    expected: Expected,
}

impl ParsePlace {
    /// Returns the number of bytes before the place.
    #[must_use]
    pub fn offset(&self) -> usize {
        self.offset
    }

    /// Returns what the text should have at the place.
    #[must_use]
    pub fn expected(&self) -> Expected {
        self.expected
    }
}

/// Writes what is expected, and the number of bytes before the place.
impl fmt::Display for ParsePlace {
    fn fmt(&self, f: &mut fmt::Formatter<'_>) -> fmt::Result {
        write!(f, "expected {} at byte {}", self.expected, self.offset)
    }
}

impl ParseErrors {
    /// Returns the place at which the text is not as expected.
    ///
    /// # Examples
    ///
    /// ```
    /// use cedar_store::ast::EntityUID;
    /// use cedar_store::parser::err::Expected;
    ///
    /// let error = r#"Photos::::"alice""#.parse::<EntityUID>().unwrap_err();
    /// assert_eq!((error.place().offset(), error.place().expected()), (8, Expected::Identifier));
    /// assert_eq!(error.to_string(), "not a valid name: expected an identifier at byte 8");
    /// ```
    #[must_use]
    pub fn place(&self) -> ParsePlace {
        match self {
            ParseErrors::NotNormalized(place) | ParseErrors::InvalidName(place) => *place,
        }
    }

    /// Returns the error for a text that is not an identifier, or is a reserved word.
    pub(crate) fn of_identifier(text: &str) -> Self {
        let is_part = |b: u8| b.is_ascii_alphanumeric() || b == b'_';
        let is_start = |b: &u8| is_part(*b) && !b.is_ascii_digit();
        let place = |offset, expected| ParseErrors::InvalidName(ParsePlace { offset, expected });
        if !text.as_bytes().first().is_some_and(is_start) {
            return place(0, Expected::Identifier);
        }
        match text.bytes().position(|b| !is_part(b)) {
            Some(offset) => place(offset, Expected::IdentifierPart),
            None => place(0, Expected::Unreserved),
        }
    }

    /// Returns the error for a text without a final `"` or without `::"` before it.
    pub(crate) fn without_marks(text: &str) -> Self {
        let (offset, expected) = match text.strip_suffix('"') {
            None => (text.len(), Expected::Quote),
            Some(front) => (front.find('"').unwrap_or(front.len()), Expected::Mark),
        };
        ParseErrors::NotNormalized(ParsePlace { offset, expected })
    }

    /// Returns the error for a text of a uid that ends in `written` and `"`, where `written` is not the printed form of
    /// an eid. `decoded` is the text that `written` denotes, as far as its escapes exist.
    pub(crate) fn of_eid(text: &str, written: &str, decoded: &str) -> Self {
        let printed = Escaped(decoded).to_string();
        let pairs = printed.bytes().zip(written.bytes());
        let same = pairs.take_while(|(one, other)| one == other).count();
        let start = (0..=same).rev().find(|at| written.is_char_boundary(*at));
        ParseErrors::NotNormalized(ParsePlace {
            offset: text.len() - 1 - written.len() + start.unwrap_or(0),
            expected: Expected::PrintedEid,
        })
    }

    /// Returns the error for a text that has `count` bytes before the text of this error.
    pub(crate) fn after(self, count: usize) -> Self {
        let moved = |place: ParsePlace| ParsePlace {
            offset: place.offset + count,
            ..place
        };
        match self {
            ParseErrors::NotNormalized(place) => ParseErrors::NotNormalized(moved(place)),
            ParseErrors::InvalidName(place) => ParseErrors::InvalidName(moved(place)),
        }
    }
}

/// The error of an action constraint with uids that are not actions.
///
/// It is the content of [`TemplateValidationError::InvalidActionType`], as a type of its own.
///
/// # Differences from cedar-policy-core
///
/// The field is public, because no parser of this package creates the error.
#[derive(Clone, Debug, PartialEq, Eq)]
pub struct InvalidActionType {
    /// The uids that are not actions.
    pub euids: NonEmpty<Arc<EntityUID>>,
}

/// The error of a slot in the condition clause of a policy.
///
/// It is the content of [`TemplateValidationError::SlotsInConditionClause`], as a type of its own.
///
/// # Differences from cedar-policy-core
///
/// The field is public, because no parser of this package creates the error. The error does not name the kind of the
/// clause.
#[derive(Clone, Debug, PartialEq, Eq)]
pub struct SlotsInConditionClause {
    /// The first slot of the clause.
    pub slot: Slot,
}

impl From<InvalidActionType> for TemplateValidationError {
    fn from(error: InvalidActionType) -> Self {
        TemplateValidationError::InvalidActionType(error.euids)
    }
}

impl From<SlotsInConditionClause> for TemplateValidationError {
    fn from(error: SlotsInConditionClause) -> Self {
        TemplateValidationError::SlotsInConditionClause(error.slot)
    }
}

/// Writes the text of the validation error with this content.
impl fmt::Display for InvalidActionType {
    fn fmt(&self, f: &mut fmt::Formatter<'_>) -> fmt::Result {
        TemplateValidationError::from(self.clone()).fmt(f)
    }
}

/// Writes the text of the validation error with this content.
impl fmt::Display for SlotsInConditionClause {
    fn fmt(&self, f: &mut fmt::Formatter<'_>) -> fmt::Result {
        TemplateValidationError::from(self.clone()).fmt(f)
    }
}

impl Error for InvalidActionType {}

impl Error for SlotsInConditionClause {}
