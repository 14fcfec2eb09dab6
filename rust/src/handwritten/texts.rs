//! Ids, names and uids as texts: the traits of the standard library that read them, write them and borrow them.
use crate::ast::{AnyId, Eid, EntityType, EntityUID, Id, Name, PolicyID};
use crate::parser::err::ParseErrors;
use std::borrow::Borrow;
use std::fmt;
use std::str::FromStr;

/// Reads the printed form of a uid, and no other spelling: the form of [`EntityUID::from_normalized_str`].
///
/// ```
/// use cedar_store::ast::EntityUID;
///
/// let alice: EntityUID = r#"Photos::User::"alice""#.parse()?;
/// assert_eq!(alice.eid().as_ref(), "alice");
/// assert!(r#"Photos :: User::"alice""#.parse::<EntityUID>().is_err());
/// # Ok::<(), Box<dyn std::error::Error>>(())
/// ```
impl FromStr for EntityUID {
    type Err = ParseErrors;

    fn from_str(text: &str) -> Result<Self, ParseErrors> {
        EntityUID::from_normalized_str(text)
    }
}

/// Reads the printed form of an entity type, and no other spelling: the form of [`EntityType::from_normalized_str`].
impl FromStr for EntityType {
    type Err = ParseErrors;

    fn from_str(text: &str) -> Result<Self, ParseErrors> {
        EntityType::from_normalized_str(text)
    }
}

/// Reads the printed form of a name, and no other spelling: the form of [`Name::from_normalized_str`].
impl FromStr for Name {
    type Err = ParseErrors;

    fn from_str(text: &str) -> Result<Self, ParseErrors> {
        Name::from_normalized_str(text)
    }
}

/// Reads an identifier that is not reserved, without blanks: the form of [`Id::from_normalized_str`].
impl FromStr for Id {
    type Err = ParseErrors;

    fn from_str(text: &str) -> Result<Self, ParseErrors> {
        Id::from_normalized_str(text)
    }
}

/// Reads an identifier without blanks: the form of [`AnyId::from_normalized_str`].
impl FromStr for AnyId {
    type Err = ParseErrors;

    fn from_str(text: &str) -> Result<Self, ParseErrors> {
        AnyId::from_normalized_str(text)
    }
}

impl From<&str> for PolicyID {
    fn from(text: &str) -> Self {
        PolicyID::from_string(text)
    }
}

impl From<String> for PolicyID {
    fn from(text: String) -> Self {
        PolicyID::from_smolstr(text)
    }
}

/// Borrows the text of the id, so that a map with ids as keys finds a text.
///
/// ```
/// use cedar_store::ast::PolicyID;
/// use std::collections::HashMap;
///
/// let owners = HashMap::from([(PolicyID::from("allow-all"), "alice")]);
/// assert_eq!(owners.get("allow-all"), Some(&"alice"));
/// ```
impl Borrow<str> for PolicyID {
    fn borrow(&self) -> &str {
        self.as_ref()
    }
}

impl From<&str> for Eid {
    fn from(text: &str) -> Self {
        Eid::new(text)
    }
}

impl From<String> for Eid {
    fn from(text: String) -> Self {
        Eid::new(text)
    }
}

/// Borrows the text of the id, so that a map with ids as keys finds a text.
impl Borrow<str> for Eid {
    fn borrow(&self) -> &str {
        self.as_ref()
    }
}

/// Writes the text of the id as it is within the quotes of a uid: the text of [`Eid::escaped`].
impl fmt::Display for Eid {
    fn fmt(&self, f: &mut fmt::Formatter<'_>) -> fmt::Result {
        f.write_str(&self.escaped())
    }
}
