//! Names, identifiers, and source locations.
use crate::error::{Error, Reason};
use crate::errors::ParseErrors;
use crate::ffi;
use std::cmp::Ordering;
use std::fmt;
use std::sync::Arc;

/// A location in a source text. No comparison uses it. The C library does not store locations, so an item that is read
/// from a store has none.
#[derive(Clone, Debug, PartialEq, Eq)]
pub struct Loc {
    /// The start of the range.
    pub start: usize,
    /// The end of the range.
    pub end: usize,
    /// The source text.
    pub src: Arc<str>,
}

impl Loc {
    /// Creates the location of the range from `start` to `end`, without `end`, in a source text.
    pub fn new(start: usize, end: usize, src: Arc<str>) -> Loc {
        Loc { start, end, src }
    }
}

/// Returns a text as the library escapes it: as it is written between the quotes of a uid or of a string.
///
/// Calls the library once if there is anything to escape. Panics if an allocation fails.
pub(crate) fn escaped(text: &str) -> String {
    let is_plain = |b: &u8| (0x20..0x7f).contains(b) && !matches!(b, b'\'' | b'"' | b'\\');
    if text.as_bytes().iter().all(is_plain) {
        return text.to_owned();
    }
    let uid = ffi::make_uid("A", text).expect("cannot allocate a text");
    uid[4..uid.len() - 1].to_owned()
}

/// An identifier that is not a reserved word. Each part of a name is one.
#[derive(Clone, Debug, PartialEq, Eq, PartialOrd, Ord, Hash)]
pub struct Id {
    text: Arc<str>,
}

impl Id {
    /// Parses an identifier. Calls the library once.
    ///
    /// # Errors
    ///
    /// - `InvalidName`: the text is not an identifier, or it is a reserved word.
    /// - `Other`: an allocation failed.
    ///
    /// ```
    /// use cedar_store_proved::ast::Id;
    /// assert_eq!(Id::from_normalized_str("User").unwrap().as_ref(), "User");
    /// assert!(Id::from_normalized_str("if").is_err() && Id::from_normalized_str("A::B").is_err());
    /// ```
    pub fn from_normalized_str(text: &str) -> Result<Id, ParseErrors> {
        Name::parse_unqualified_name(text).map(|name| name.basename)
    }
}

/// An identifier, which may be a reserved word. It is the key of an annotation.
#[derive(Clone, Debug, PartialEq, Eq, PartialOrd, Ord, Hash)]
pub struct AnyId {
    text: Arc<str>,
}

impl AnyId {
    /// Parses an identifier: ASCII letters, digits and `_`. The first character is not a digit.
    ///
    /// # Errors
    ///
    /// - `InvalidName`: the text is not an identifier.
    ///
    /// ```
    /// use cedar_store_proved::ast::AnyId;
    /// assert!(AnyId::from_normalized_str("if").is_ok() && AnyId::from_normalized_str("1").is_err());
    /// ```
    pub fn from_normalized_str(text: &str) -> Result<AnyId, ParseErrors> {
        let is_in_word = |b: &u8| b.is_ascii_alphanumeric() || *b == b'_';
        let is_first = |b: &u8| is_in_word(b) && !b.is_ascii_digit();
        match text.as_bytes().split_first() {
            Some((first, rest)) if is_first(first) && rest.iter().all(is_in_word) => {
                Ok(AnyId::from_valid_text(text))
            }
            _ => Err(ParseErrors::InvalidName),
        }
    }

    /// Creates an identifier from a text that the library wrote.
    pub(crate) fn from_valid_text(text: &str) -> AnyId {
        AnyId { text: text.into() }
    }
}

/// A name of an entity type or a function: identifiers joined by `::`, for example `User` or `A::B`.
///
/// Names are ordered by their last identifier, and then by the identifiers before it.
#[derive(Clone, PartialEq, Eq, Hash)]
pub struct Name {
    text: Arc<str>,
    basename: Id,
}

impl Name {
    /// Parses a name. Calls the library once.
    ///
    /// # Errors
    ///
    /// - `InvalidName`: the text is not a name.
    /// - `Other`: an allocation failed.
    ///
    /// ```
    /// use cedar_store_proved::ast::Name;
    /// let name = Name::from_normalized_str("A::B").unwrap();
    /// assert_eq!((name.to_string().as_str(), name.basename().as_ref()), ("A::B", "B"));
    /// assert!(!name.is_unqualified() && Name::from_normalized_str("A::").is_err());
    /// ```
    pub fn from_normalized_str(text: &str) -> Result<Name, ParseErrors> {
        match ffi::make_uid(text, "") {
            Ok(_) => Ok(Name::from_valid_text(text)),
            Err(status) if Reason::of(status) == Reason::NotAName => Err(ParseErrors::InvalidName),
            Err(status) => Err(ParseErrors::Other(Error::new(status, Vec::new))),
        }
    }

    /// Parses a name that consists of one identifier.
    ///
    /// # Errors
    ///
    /// - `InvalidName`: the text is not a name, or it has several identifiers.
    /// - `Other`: an allocation failed.
    pub fn parse_unqualified_name(text: &str) -> Result<Name, ParseErrors> {
        match text.contains("::") {
            true => Err(ParseErrors::InvalidName),
            false => Name::from_normalized_str(text),
        }
    }

    /// Creates a name from a text that is known to be one.
    pub(crate) fn from_valid_text(text: &str) -> Name {
        let last = text.rsplit("::").next().unwrap_or(text);
        Name {
            text: text.into(),
            basename: Id { text: last.into() },
        }
    }

    /// Returns the last identifier.
    pub fn basename(&self) -> &Id {
        &self.basename
    }

    /// Returns whether the name consists of one identifier.
    pub fn is_unqualified(&self) -> bool {
        self.text.len() == self.basename.text.len()
    }

    /// Returns the name in a namespace. A name that already has a path is returned unchanged, and so is any name if
    /// `namespace` is `None`.
    ///
    /// ```
    /// use cedar_store_proved::ast::Name;
    /// let [user, photos] = ["User", "Photos"].map(|text| Name::from_normalized_str(text).unwrap());
    /// assert_eq!(user.qualify_with_name(Some(&photos)).to_string(), "Photos::User");
    /// ```
    pub fn qualify_with_name(&self, namespace: Option<&Name>) -> Name {
        match namespace {
            Some(path) if self.is_unqualified() => {
                Name::from_valid_text(&format!("{path}::{self}"))
            }
            _ => self.clone(),
        }
    }

    pub(crate) fn as_str(&self) -> &str {
        &self.text
    }
}

/// Compares the names with these texts, in the order of names.
pub(crate) fn compare_names(one: &str, other: &str) -> Ordering {
    if one == other {
        return Ordering::Equal;
    }
    let (mut ones, mut others) = (one.rsplit("::"), other.rsplit("::"));
    let last = ones.next().cmp(&others.next());
    let path = |text: &str| text.rfind("::").map_or(0, |end| end);
    last.then_with(|| {
        let (one, other) = (&one[..path(one)], &other[..path(other)]);
        let parts = |path: &str| !path.is_empty();
        match (parts(one), parts(other)) {
            (true, true) => one.split("::").cmp(other.split("::")),
            (one, other) => one.cmp(&other),
        }
    })
}

impl PartialOrd for Name {
    fn partial_cmp(&self, other: &Name) -> Option<Ordering> {
        Some(self.cmp(other))
    }
}

impl Ord for Name {
    fn cmp(&self, other: &Name) -> Ordering {
        compare_names(&self.text, &other.text)
    }
}

impl fmt::Debug for Name {
    fn fmt(&self, f: &mut fmt::Formatter<'_>) -> fmt::Result {
        fmt::Debug::fmt(&self.text, f)
    }
}

impl fmt::Display for Name {
    fn fmt(&self, f: &mut fmt::Formatter<'_>) -> fmt::Result {
        f.pad(&self.text)
    }
}

// Implements the traits of texts for both kinds of identifiers.
macro_rules! texts {
    ($($kind:ident)*) => {$(
        impl fmt::Display for $kind {
            fn fmt(&self, f: &mut fmt::Formatter<'_>) -> fmt::Result {
                f.pad(&self.text)
            }
        }

        impl AsRef<str> for $kind {
            fn as_ref(&self) -> &str {
                &self.text
            }
        }
    )*};
}

texts!(Id AnyId);
