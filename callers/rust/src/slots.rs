//! Slots of templates, variables of requests, and unknown values.
use crate::name::{escaped, Loc};
use crate::uid::{EntityType, EntityUID};
use std::collections::HashMap;
use std::fmt;
use std::hash::{Hash, Hasher};

/// The id of a template's slot. There are three, in this order.
#[derive(Clone, Copy, Debug, PartialEq, Eq, PartialOrd, Ord, Hash)]
pub enum SlotId {
    /// The slot `?principal`.
    Principal,
    /// The slot `?action`.
    Action,
    /// The slot `?resource`.
    Resource,
}

impl SlotId {
    /// All slot ids, in their order.
    pub const ALL: [SlotId; 3] = [SlotId::Principal, SlotId::Action, SlotId::Resource];

    /// Returns the id of the principal's slot.
    pub fn principal() -> SlotId {
        SlotId::Principal
    }

    /// Returns the id of the action's slot.
    pub fn action() -> SlotId {
        SlotId::Action
    }

    /// Returns the id of the resource's slot.
    pub fn resource() -> SlotId {
        SlotId::Resource
    }
}

impl fmt::Display for SlotId {
    fn fmt(&self, f: &mut fmt::Formatter<'_>) -> fmt::Result {
        f.write_str(match self {
            SlotId::Principal => "?principal",
            SlotId::Action => "?action",
            SlotId::Resource => "?resource",
        })
    }
}

/// Bindings of template slots: a uid for each bound slot.
///
/// ```
/// use cedar_store_proved::ast::{EntityUID, SlotEnv, SlotId};
/// let alice = EntityUID::from_normalized_str(r#"User::"alice""#).unwrap();
/// let values = SlotEnv::from([(SlotId::principal(), alice)]);
/// assert!(values.get(&SlotId::resource()).is_none());
/// ```
pub type SlotEnv = HashMap<SlotId, EntityUID>;

/// An occurrence of a slot: its id and its location. Comparisons ignore the location.
#[derive(Clone, Debug)]
pub struct Slot {
    /// The id of the slot.
    pub id: SlotId,
    /// The location, if it is known.
    pub loc: Option<Loc>,
}

impl PartialEq for Slot {
    fn eq(&self, other: &Slot) -> bool {
        self.id == other.id
    }
}

impl Eq for Slot {}

impl Hash for Slot {
    fn hash<H: Hasher>(&self, state: &mut H) {
        self.id.hash(state);
    }
}

/// A variable of a request.
#[derive(Clone, Copy, Debug, PartialEq, Eq, Hash)]
pub enum Var {
    /// The variable `principal`.
    Principal,
    /// The variable `action`.
    Action,
    /// The variable `resource`.
    Resource,
    /// The variable `context`.
    Context,
}

impl Var {
    // All variables, in their order.
    pub(crate) const ALL: [Var; 4] = [Var::Principal, Var::Action, Var::Resource, Var::Context];
}

impl fmt::Display for Var {
    fn fmt(&self, f: &mut fmt::Formatter<'_>) -> fmt::Result {
        f.write_str(match self {
            Var::Principal => "principal",
            Var::Action => "action",
            Var::Resource => "resource",
            Var::Context => "context",
        })
    }
}

/// The type of a value. Only entity types are represented.
#[derive(Clone, Debug, PartialEq, Eq, Hash)]
pub enum StaticType {
    /// An entity.
    Entity {
        /// The type of the entity.
        ty: EntityType,
    },
}

/// Items with a known type.
pub trait StaticallyTyped {
    /// Returns the type.
    fn type_of(&self) -> StaticType;
}

impl StaticallyTyped for EntityUID {
    fn type_of(&self) -> StaticType {
        let ty = self.entity_type().clone();
        StaticType::Entity { ty }
    }
}

/// An unknown value: its name, and its type, if it is known.
///
/// ```
/// use cedar_store_proved::ast::{EntityType, StaticType, Unknown};
/// let ty = EntityType::from_normalized_str("User").unwrap();
/// let unknown = Unknown::new_with_type("x", StaticType::Entity { ty });
/// assert!(unknown != Unknown::new_untyped("x") && unknown.to_string() == r#"unknown("x")"#);
/// ```
#[derive(Clone, Debug, PartialEq, Eq, Hash)]
pub struct Unknown {
    /// The name under which the value will be provided.
    pub name: String,
    /// The type of the value, if it is known.
    pub type_annotation: Option<StaticType>,
}

impl Unknown {
    /// Creates an unknown with this name, of any type.
    pub fn new_untyped(name: impl Into<String>) -> Unknown {
        Unknown {
            name: name.into(),
            type_annotation: None,
        }
    }

    /// Creates an unknown with this name and this type.
    pub fn new_with_type(name: impl Into<String>, ty: StaticType) -> Unknown {
        Unknown {
            name: name.into(),
            type_annotation: Some(ty),
        }
    }
}

impl fmt::Display for Unknown {
    fn fmt(&self, f: &mut fmt::Formatter<'_>) -> fmt::Result {
        write!(f, "unknown(\"{}\")", escaped(&self.name))
    }
}
