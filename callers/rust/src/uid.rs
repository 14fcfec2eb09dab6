//! Uids of entities, their types and their ids.
use crate::error::{Error, Reason};
use crate::errors::ParseErrors;
use crate::ffi;
use crate::name::{compare_names, escaped, Loc, Name};
use std::borrow::Borrow;
use std::cmp::Ordering;
use std::fmt;
use std::hash::{Hash, Hasher};
use std::str::FromStr;
use std::sync::{Arc, OnceLock};

/// The last identifier of the type of actions, in any namespace.
pub const ACTION_ENTITY_TYPE: &str = "Action";

/// The type of an entity: a name, for example `User` or `A::B`. Types are ordered as their names.
///
/// ```
/// use cedar_store_proved::ast::EntityType;
/// let ty: EntityType = "A::B".parse().unwrap();
/// assert_eq!((ty.to_string().as_str(), ty.name().basename().as_ref()), ("A::B", "B"));
/// assert!("A B".parse::<EntityType>().is_err());
/// ```
#[derive(Clone, Debug, PartialEq, Eq, PartialOrd, Ord, Hash)]
pub enum EntityType {
    /// The type with this name.
    EntityType(Name),
}

impl EntityType {
    /// Parses an entity type. Calls the library once.
    ///
    /// # Errors
    ///
    /// - `InvalidName`: the text is not a name.
    /// - `Other`: an allocation failed.
    pub fn from_normalized_str(text: &str) -> Result<EntityType, ParseErrors> {
        Name::from_normalized_str(text).map(EntityType::EntityType)
    }

    /// Returns the name.
    pub fn name(&self) -> &Name {
        let EntityType::EntityType(name) = self;
        name
    }

    /// Returns the name, by value.
    pub fn into_name(self) -> Name {
        let EntityType::EntityType(name) = self;
        name
    }

    /// Returns the type in a namespace; see [`Name::qualify_with_name`].
    pub fn qualify_with(&self, namespace: Option<&Name>) -> EntityType {
        EntityType::EntityType(self.name().qualify_with_name(namespace))
    }

    /// Returns whether it is a type of actions: whether its last identifier is `Action`.
    pub fn is_action(&self) -> bool {
        self.name().basename().as_ref() == ACTION_ENTITY_TYPE
    }
}

/// The id of an entity within its type. It can be any text, and is not escaped.
#[derive(Clone, Debug, PartialEq, Eq, PartialOrd, Ord, Hash)]
pub enum Eid {
    /// The id with this text.
    Eid(String),
}

impl Eid {
    /// Creates an id from a text.
    pub fn new(text: impl Into<String>) -> Eid {
        Eid::Eid(text.into())
    }

    /// Returns the id as it is written between the quotes of a uid.
    ///
    /// # Panics
    ///
    /// Panics if an allocation fails.
    ///
    /// ```
    /// assert_eq!(cedar_store_proved::ast::Eid::new("O'Brien").escaped(), "O\\'Brien");
    /// ```
    pub fn escaped(&self) -> String {
        escaped(self.as_ref())
    }

    /// Returns the text.
    pub fn into_smolstr(self) -> String {
        let Eid::Eid(text) = self;
        text
    }
}

// The data of a uid other than its text. It is behind a trait because its lazy parse does not affect the uid. Otherwise
// lints would report a uid as a map key with interior mutability.
trait UidData: Send + Sync {
    // Returns the type and the id of the text. The first call parses the text with one call of the library.
    fn parts(&self, text: &str) -> &(EntityType, Eid);
    fn loc(&self) -> Option<&Loc>;
}

#[derive(Default)]
struct ParsedUid {
    parts: OnceLock<(EntityType, Eid)>,
    loc: Option<Box<Loc>>,
}

impl UidData for ParsedUid {
    fn parts(&self, text: &str) -> &(EntityType, Eid) {
        self.parts.get_or_init(|| {
            let (ty, id) = ffi::uid_parts(text).expect("cannot allocate an id");
            (
                EntityType::EntityType(Name::from_valid_text(&ty)),
                Eid::Eid(id),
            )
        })
    }

    fn loc(&self) -> Option<&Loc> {
        self.loc.as_deref()
    }
}

/// The uid of an entity: a type and an id. It stores its text, for example `A::B::"c"`, so a query copies nothing.
/// `clone` shares the text.
///
/// Equality and the hash use the text and ignore locations. Uids are ordered by type, and then by id.
///
/// ```
/// use cedar_store_proved::ast::{Eid, EntityType, EntityUID};
/// let alice = EntityUID::from_normalized_str(r#"User::"alice""#).unwrap();
/// assert_eq!(alice.entity_type(), &EntityType::from_normalized_str("User").unwrap());
/// assert_eq!(alice.eid(), &Eid::new("alice"));
/// let (ty, eid) = alice.clone().components();
/// assert_eq!(EntityUID::from_components(ty, eid, None), alice);
/// let other = EntityUID::with_eid_and_type("User", "O'Brien").unwrap();
/// assert_eq!(other.to_string(), r#"User::"O\'Brien""#);
/// ```
#[derive(Clone)]
pub struct EntityUID {
    text: Arc<str>,
    data: Arc<dyn UidData>,
}

impl EntityUID {
    /// Creates a uid from a text that the library wrote or accepted as a uid.
    pub(crate) fn from_valid_text(text: &str) -> EntityUID {
        EntityUID::of(text, ParsedUid::default())
    }

    fn of(text: &str, data: ParsedUid) -> EntityUID {
        EntityUID {
            text: text.into(),
            data: Arc::new(data),
        }
    }

    /// Parses a uid. Calls the library once.
    ///
    /// # Errors
    ///
    /// - `InvalidName`: the part before the first `::"` is not a name.
    /// - `NotNormalized`: the text is not a uid for another reason.
    /// - `Other`: an allocation failed.
    pub fn from_normalized_str(text: &str) -> Result<EntityUID, ParseErrors> {
        match ffi::check_uid(text) {
            0 => Ok(EntityUID::from_valid_text(text)),
            4 => Err(ParseErrors::of_uid(text)),
            status => Err(ParseErrors::Other(Error::new(status, Vec::new))),
        }
    }

    /// Creates a uid from a type and an id, with a location.
    ///
    /// # Panics
    ///
    /// Panics if an allocation fails.
    pub fn from_components(ty: EntityType, eid: Eid, loc: Option<Loc>) -> EntityUID {
        let text = ffi::make_uid(ty.name().as_str(), eid.as_ref()).expect("cannot allocate a uid");
        let data = ParsedUid {
            parts: OnceLock::from((ty, eid)),
            loc: loc.map(Box::new),
        };
        EntityUID::of(&text, data)
    }

    /// Creates a uid from a type and an id. The id can be any text, and is not escaped. Calls the library once.
    ///
    /// # Errors
    ///
    /// - `InvalidName`: the type is not a name.
    /// - `Other`: an allocation failed.
    pub fn with_eid_and_type(typename: &str, eid: &str) -> Result<EntityUID, ParseErrors> {
        match ffi::make_uid(typename, eid) {
            Ok(text) => Ok(EntityUID::from_valid_text(&text)),
            Err(status) if Reason::of(status) == Reason::NotAName => Err(ParseErrors::InvalidName),
            Err(status) => Err(ParseErrors::Other(Error::new(status, Vec::new))),
        }
    }

    /// Returns the type. The first call of this function or of [`EntityUID::eid`] calls the library once.
    ///
    /// # Panics
    ///
    /// Panics if an allocation fails.
    pub fn entity_type(&self) -> &EntityType {
        &self.data.parts(&self.text).0
    }

    /// Returns the id. The first call of this function or of [`EntityUID::entity_type`] calls the library once.
    ///
    /// # Panics
    ///
    /// Panics if an allocation fails.
    pub fn eid(&self) -> &Eid {
        &self.data.parts(&self.text).1
    }

    /// Returns the type and the id.
    ///
    /// # Panics
    ///
    /// Panics if an allocation fails.
    pub fn components(self) -> (EntityType, Eid) {
        self.data.parts(&self.text).clone()
    }

    /// Returns the location in a source text, if it is known.
    pub fn loc(&self) -> Option<&Loc> {
        self.data.loc()
    }

    // Returns the text of the type, and the text between the quotes.
    fn halves(&self) -> (&str, &str) {
        let (ty, rest) = self.text.split_once("::\"").expect("a uid has an id");
        (ty, &rest[..rest.len() - 1])
    }

    // Returns the id. If nothing is escaped, it is a part of the text.
    fn id(&self) -> &str {
        match self.halves().1 {
            plain if !plain.contains('\\') => plain,
            _ => self.eid().as_ref(),
        }
    }

    /// Returns whether the uid is an action: whether the last identifier of its type is `Action`.
    pub fn is_action(&self) -> bool {
        self.halves().0.rsplit("::").next() == Some(ACTION_ENTITY_TYPE)
    }

    /// Returns the text. In `cedar-store`, use `Display` instead.
    pub fn as_str(&self) -> &str {
        &self.text
    }
}

impl PartialEq for EntityUID {
    fn eq(&self, other: &EntityUID) -> bool {
        Arc::ptr_eq(&self.text, &other.text) || self.text == other.text
    }
}

// Lists of uids are compared with lists of borrowed uids.
impl PartialEq<&EntityUID> for EntityUID {
    fn eq(&self, other: &&EntityUID) -> bool {
        self == *other
    }
}

impl Eq for EntityUID {}

impl Hash for EntityUID {
    fn hash<H: Hasher>(&self, state: &mut H) {
        self.text.hash(state);
    }
}

impl PartialOrd for EntityUID {
    fn partial_cmp(&self, other: &EntityUID) -> Option<Ordering> {
        Some(self.cmp(other))
    }
}

impl Ord for EntityUID {
    fn cmp(&self, other: &EntityUID) -> Ordering {
        if self == other {
            return Ordering::Equal;
        }
        let types = compare_names(self.halves().0, other.halves().0);
        types.then_with(|| self.id().cmp(other.id()))
    }
}

impl fmt::Debug for EntityUID {
    fn fmt(&self, f: &mut fmt::Formatter<'_>) -> fmt::Result {
        fmt::Debug::fmt(&self.text, f)
    }
}

impl fmt::Display for EntityUID {
    fn fmt(&self, f: &mut fmt::Formatter<'_>) -> fmt::Result {
        f.pad(&self.text)
    }
}

impl FromStr for EntityUID {
    type Err = ParseErrors;

    fn from_str(text: &str) -> Result<EntityUID, ParseErrors> {
        EntityUID::from_normalized_str(text)
    }
}

impl From<EntityUID> for String {
    fn from(uid: EntityUID) -> String {
        uid.as_str().to_owned()
    }
}

impl AsRef<str> for EntityUID {
    fn as_ref(&self) -> &str {
        &self.text
    }
}

// The hash of a uid is the hash of its text.
impl Borrow<str> for EntityUID {
    fn borrow(&self) -> &str {
        &self.text
    }
}

impl fmt::Display for EntityType {
    fn fmt(&self, f: &mut fmt::Formatter<'_>) -> fmt::Result {
        fmt::Display::fmt(self.name(), f)
    }
}

impl FromStr for EntityType {
    type Err = ParseErrors;

    fn from_str(text: &str) -> Result<EntityType, ParseErrors> {
        EntityType::from_normalized_str(text)
    }
}

impl From<Name> for EntityType {
    fn from(name: Name) -> EntityType {
        EntityType::EntityType(name)
    }
}

impl From<EntityType> for Name {
    fn from(ty: EntityType) -> Name {
        ty.into_name()
    }
}

impl AsRef<Name> for EntityType {
    fn as_ref(&self) -> &Name {
        self.name()
    }
}

impl AsRef<str> for Eid {
    fn as_ref(&self) -> &str {
        let Eid::Eid(text) = self;
        text
    }
}

// Compares a uid with a text: the texts must be equal.
macro_rules! compared_to_texts {
    ($($text:ty)*) => {$(
        impl PartialEq<$text> for EntityUID {
            fn eq(&self, other: &$text) -> bool {
                let other: &str = other.as_ref();
                *self.text == *other
            }
        }
    )*};
}

compared_to_texts!(str &str String);
