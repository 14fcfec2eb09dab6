//! Stores of entities and policy sets of the Cedar authorization language.
//!
//! The functions call a static library whose functions are proved correct, up to the boundary that `cedar.h` describes.
//! This crate encodes the arguments, copies the results and frees the handles. The crate itself is tested, not proved.
//!
//! All items that the package `cedar-store` also has have the same names, paths, arguments and results. A program that
//! uses only these items can switch packages by changing the crate name. The README lists the differences.
//!
//! ```
//! use cedar_store_proved::ast::{Entity, EntityUID};
//! use cedar_store_proved::entities::{Dereference, Entities, TCComputation};
//!
//! # fn main() -> Result<(), Box<dyn std::error::Error>> {
//! let uid = EntityUID::from_normalized_str;
//! let (alice, staff, all) = (uid(r#"User::"alice""#)?, uid(r#"Group::"staff""#)?, uid(r#"Group::"all""#)?);
//! let mut entities = [alice.clone(), staff.clone(), all.clone()].map(Entity::with_uid);
//! entities[0].add_parent(staff.clone());
//! entities[1].add_parent(all.clone());
//! let store = Entities::from_entities(entities, TCComputation::ComputeNow)?;
//! assert!(matches!(store.entity(&alice), Dereference::Data(e) if e.is_descendant_of(&all)));
//! # Ok(())
//! # }
//! ```
#![deny(missing_docs)]
#![deny(unsafe_code)]

mod action;
mod annotation;
mod body;
mod body_lists;
mod by_key;
mod decision;
mod deep_copy;
mod entity;
mod error;
mod errors;
mod expr;
#[allow(unsafe_code)]
mod ffi;
mod invalid;
mod key;
mod lists;
mod name;
mod naming;
mod nodes;
mod numbers;
mod policies_cache;
mod policies_iters;
mod policies_queries;
mod policy;
mod policy_set;
mod reason;
mod scope;
mod slots;
mod store_queries;
mod stored;
mod stored_entity;
mod template;
mod uid;
mod value;
mod value_walk;

pub use ast::{Effect, Entity, EntityUID, PolicyID, PolicySet, SlotEnv, SlotId, Value};
pub use deep_copy::{EntitiesDeepCopy, PolicySetDeepCopy};
pub use entities::{Dereference, Entities, TCComputation};
pub use error::{Error, Reason};
pub use key::Key;
pub use numbers::UidNumber;
pub use policies_cache::Renaming;
pub use policies_queries::Bound;
pub use policy::Slots;

/// Ids, entities, values, expressions, constraints, policies, templates and policy sets.
pub mod ast {
    pub use crate::action::{ActionConstraint, EntityIterator};
    pub use crate::annotation::{Annotation, Annotations};
    pub use crate::body::{TemplateBody, TemplateBodyImpl};
    pub use crate::entity::Entity;
    pub use crate::errors::{
        LinkingError, ParseErrors, PolicySetError, PolicySetGetLinksError,
        PolicySetPolicyRemovalError, PolicySetTemplateRemovalError, PolicySetUnlinkError,
    };
    pub use crate::expr::{Expr, ExprNode};
    pub use crate::invalid::{
        ActionTypesError, ExprValidationError, NonEmpty, PolicySetValidationError,
        TemplateValidationError, UnexpectedSlotError,
    };
    pub use crate::name::{AnyId, Id, Name};
    pub use crate::policy::{Effect, Policy, PolicyID};
    pub use crate::policy_set::PolicySet;
    pub use crate::scope::{
        EntityReference, PrincipalConstraint, PrincipalOrResource, PrincipalOrResourceConstraint,
        ResourceConstraint,
    };
    pub use crate::slots::{Slot, SlotEnv, SlotId, StaticType, StaticallyTyped, Unknown, Var};
    pub use crate::template::{StaticPolicy, Template};
    pub use crate::uid::{Eid, EntityType, EntityUID, ACTION_ENTITY_TYPE};
    pub use crate::value::{ExtensionValue, Literal, PartialValue, Value, ValueKind};

    /// Annotations and their iterators.
    pub mod annotation {
        pub use crate::annotation::{Annotation, Annotations, IntoIter, Iter};
    }

    /// Entities, uids, entity types and ids of entities.
    pub mod entity {
        pub use super::{Eid, Entity, EntityType, EntityUID, ACTION_ENTITY_TYPE};
    }

    /// Ids and names.
    pub mod name {
        pub use super::{AnyId, Id, Name};
    }
}

/// Stores of entities.
pub mod entities {
    pub use crate::errors::EntitiesError;
    pub use crate::numbers::UidNumber;
    pub use crate::stored::{Entities, TCComputation};
    pub use crate::stored_entity::{Dereference, IntoIter, Iter, StoredEntity};

    /// Errors of calls on stores.
    pub mod err {
        pub use crate::errors::EntitiesError;
    }
}

/// The types of the iterators that functions return.
pub mod iters {
    pub use crate::action::{ActionTypeNames, EntityIterator};
    pub use crate::entity::{Ancestors, Keys, Pairs, Uids, Union};
    pub use crate::policies_iters::{
        AllTemplates, IntoPolicies, LinkedIds, Policies, StaticPolicies, Templates,
    };
    pub use crate::scope::ConstraintTypeNames;
    pub use crate::template::Slots;
}

/// Source locations and parse errors.
pub mod parser {
    pub use crate::name::Loc;

    /// Errors of texts of uids, names and identifiers.
    pub mod err {
        pub use crate::errors::ParseErrors;
    }
}

/// Errors of the transitive closure.
pub mod transitive_closure {
    pub use crate::errors::{HasCycle, MissingTcEdge, TcError};
}

// The program in the README is a documentation test.
#[cfg(doctest)]
#[doc = include_str!("../README.md")]
struct Page;

/// Returns a slice of a store at these uids: the entities with these uids, and their ancestors that the store contains.
///
/// # Panics
///
/// Panics if an allocation fails. [`Entities::slice`] returns an error instead.
///
/// ```
/// use cedar_store_proved::ast::{Entity, EntityUID};
/// use cedar_store_proved::entities::{Entities, TCComputation};
/// let uid = |text| EntityUID::from_normalized_str(text).unwrap();
/// let (a, b) = (uid(r#"A::"a""#), uid(r#"A::"b""#));
/// let entities = [Entity::with_uid(a.clone()).with_parent(b.clone()), Entity::with_uid(b)];
/// let store = Entities::from_entities(entities, TCComputation::ComputeNow).unwrap();
/// assert_eq!(cedar_store_proved::slice(&store, &[a]).len(), 2);
/// ```
pub fn slice(store: &Entities, uids: &[EntityUID]) -> Entities {
    store.slice(uids).expect("cannot allocate a slice")
}

/// Returns whether a text is a uid.
///
/// # Errors
///
/// - `Memory`: an allocation failed.
///
/// ```
/// assert!(cedar_store_proved::is_uid("A::\"a\"").unwrap());
/// assert!(!cedar_store_proved::is_uid("A::a").unwrap());
/// ```
pub fn is_uid(text: &str) -> Result<bool, Error> {
    match ffi::check_uid(text) {
        0 => Ok(true),
        4 => Ok(false),
        status => Err(Error::new(status, Vec::new)),
    }
}

/// Runs the program on the lines of an input, with a random key. Returns its output and its exit status, which is 0 or
/// 2.
///
/// # Errors
///
/// - `Memory`: an allocation failed.
///
/// ```
/// let (out, status) = cedar_store_proved::run(b"ent\tA::\"a\"\nbuild\n").unwrap();
/// assert_eq!((out.as_slice(), status), (b"ok 1\n".as_slice(), 0));
/// ```
pub fn run(input: &[u8]) -> Result<(Vec<u8>, u32), Error> {
    run_with_key(input, Key::random())
}

/// Runs the program on the lines of an input, with this key. Otherwise works like [`run`]. Runs the program a second
/// time if the first buffer for the output is too small.
///
/// # Errors
///
/// - `Memory`: an allocation failed.
pub fn run_with_key(input: &[u8], key: Key) -> Result<(Vec<u8>, u32), Error> {
    let mut out = vec![0; input.len().max(4096)];
    loop {
        let result = ffi::run(input, key, &mut out);
        let (output_len, exit_status) = result.map_err(|status| Error::new(status, Vec::new))?;
        if output_len <= out.len() {
            out.truncate(output_len);
            return Ok((out, exit_status));
        }
        out.resize(output_len, 0);
    }
}
