//! The store layer of the [Cedar](https://www.cedarpolicy.com) authorization language: entities with all of their
//! ancestors, and policies, templates and links in sets. It has most names and signatures of `cedar-policy-core` 4.14.1,
//! which is called the original here.
//!
//! ```
//! use cedar_store::ast::{Entity, EntityUID};
//! use cedar_store::entities::{Entities, TCComputation};
//!
//! # fn main() -> Result<(), Box<dyn std::error::Error>> {
//! let all: EntityUID = r#"Group::"all""#.parse()?;
//! let mut staff = Entity::with_uid(r#"Group::"staff""#.parse()?);
//! let mut alice = Entity::with_uid(r#"User::"alice""#.parse()?);
//! alice.add_parent(staff.uid().clone());
//! staff.add_parent(all.clone());
//! let uid = alice.uid().clone();
//! let store = Entities::from_entities([alice, staff], TCComputation::ComputeNow)?;
//! assert!(store.stored(&uid).is_some_and(|alice| alice.is_descendant_of(&all)));
//! # Ok(())
//! # }
//! ```
//!
//! A store closes its entities: each entity has everything that it reaches over parents as an ancestor, and a cycle is
//! an error. A policy set binds ids to static policies, templates and links of templates. Two sets can be merged, with
//! new ids for items whose ids conflict.
//!
//! # Modules
//!
//! | Module or item | Contents |
//! |---|---|
//! | [`ast`] | ids, uids, entities, values, expressions, constraints, policies, templates, [`PolicySet`](ast::PolicySet) |
//! | [`entities`] | [`Entities`](entities::Entities), the store, and its errors |
//! | [`transitive_closure`] | closures of graphs with nodes of any type |
//! | [`parser`] | source locations and parse errors |
//! | [`slice`](slice()) | the store of some entities and all entities above them |
//! | [`would_add`], [`would_upsert`] | dry runs of edits |
//! | [`BorrowedConstraint`], [`BorrowedActionConstraint`] | constraints of a policy, without a copy |
//! | [`iters`] | the iterators that functions return |
//! | [`KeyedState`] | the default builder of hashers |
//! | [`replay`] | lists of calls |
//! | `program` | the line-based program, with the feature `cli` |
//!
//! # Edits and snapshots
//!
//! [`Entities::add_entities`](entities::Entities::add_entities) and its like take the store, as in the original, and an
//! error drops it. [`Entities::try_add_entities`](entities::Entities::try_add_entities),
//! [`try_upsert_entities`](entities::Entities::try_upsert_entities) and
//! [`try_remove_entities`](entities::Entities::try_remove_entities) edit a store in place and keep it after an error,
//! for about the same cost.
//!
//! A clone of a store or of a policy set is a snapshot. It shares all content, and costs one pointer copy for 128
//! entities or policies. An edit of the clone or of the original costs what it changes. In addition it copies each part
//! that it changes for the first time, of up to 128 entries. A clone of a policy or of an id is one pointer copy.
//!
//! # Threads
//!
//! Stores, sets and their content are `Send` and `Sync`: any number of threads can read one store. To edit a store that
//! other threads read, clone it, edit the clone, and replace an `Arc` of the store by an `Arc` of the clone.
//!
//! # Errors
//!
//! A function that can fail returns an error, which implements [`Error`](std::error::Error), `Clone` and `PartialEq`,
//! and whose [`source`](std::error::Error::source) is the cause. The comment of each function lists its errors. After an
//! error, a set or a store that was borrowed is as before. A [parse error](parser::err::ParseErrors) says what was
//! expected at which byte. The program aborts if an allocation fails, as in std.
//!
//! # Cost
//!
//! The comment of each function states its complexity. A lookup of an entity hashes its uid once. A query for an
//! ancestor is a binary search among the ancestors. An edit of a store costs what it changes, once the store lists the
//! children of each uid (see [`Entities`](entities::Entities)).
//!
//! # Coming from cedar-policy-core
//!
//! Replace `cedar_policy_core` by `cedar_store` in the paths. What differs most often:
//!
//! - Texts of uids and names are read in their printed form only: [`FromStr`](std::str::FromStr) and
//!   `from_normalized_str` accept no blanks and no other escapes. There is no parser for policies.
//! - Functions take neither a schema nor extensions, and texts are `String` and `&str` where the original has `SmolStr`.
//! - An expression has literals, variables, slots, unknowns, sets, calls, `!`, `&&`, `==`, `in` and `is`. The other
//!   eleven kinds of the original are not here.
//! - The action of a policy can have a slot, and [`Policy::action_constraint`](ast::Policy::action_constraint) returns a
//!   filled constraint by value.
//! - Functions on maps with the default hasher have the signatures of the original. A function that ends in
//!   `_with_hasher` takes another hasher, as does the type parameter of [`Entities`](entities::Entities) and
//!   [`PolicySet`](ast::PolicySet).
//! - A merge returns a [`Renaming`] instead of a map. It has the lookups and iterators of one.
//! - [`TCNode`](transitive_closure::TCNode) has more methods, all with a default. A store with equal contents prints the
//!   same text each time, in ascending order of uid.
//!
//! # What is proved
//!
//! This package is the text of a layer that is proved in Rattle, a language like Rust with contracts. The contracts are
//! erased, and rustc compiles the text. Tests compare its results with the results of the proved program. The package
//! itself is not proved: it also depends on the tool that erases the contracts, on hand-written code
//! (`src/handwritten/`, `src/lib.rs` and the two programs), on rustc and on std.
//!
//! In Rattle, the prover checks the preconditions of each call. Here the caller must ensure them:
//!
//! - [`compute_tc`](transitive_closure::compute_tc), [`repair_tc`](transitive_closure::repair_tc) and
//!   [`enforce_tc_and_dag`](transitive_closure::enforce_tc_and_dag): each node is stored under its own key.
//! - [`Dereference::unwrap`](entities::Dereference::unwrap): an entity was found.
//! - [`Policy::from_when_clause`](ast::Policy::from_when_clause): the clause contains no slot.
//! - [`PolicySet::singleton`](ast::PolicySet::singleton): a link has a different id than its template.
//!
//! If a caller violates one of them, the call panics or returns a wrong result. A debug build checks them.
#![forbid(unsafe_code)]
#![allow(
    clippy::inline_always,
    reason = "measured: these functions are called for each uid, and are small where they are inlined"
)]
#![allow(
    clippy::match_same_arms,
    reason = "each variant has an arm of its own, in the order of the enum"
)]
#![allow(
    clippy::cast_lossless,
    clippy::cast_possible_truncation,
    clippy::cast_possible_wrap,
    clippy::cast_sign_loss,
    reason = "hashes are mixed with bytes, and places are checked to fit when a table grows"
)]
#![allow(
    clippy::many_single_char_names,
    reason = "numbers of a graph have the letters of the literature"
)]
#![allow(
    clippy::implicit_hasher,
    reason = "the functions have the signatures of the original; others take a hasher"
)]
#![allow(
    clippy::single_match_else,
    reason = "a match shows both cases of an option in the same way"
)]
#![allow(
    clippy::ref_option,
    clippy::trivially_copy_pass_by_ref,
    clippy::needless_pass_by_value,
    reason = "the parameters of the proved functions"
)]
#![allow(clippy::explicit_iter_loop, reason = "the call says what a loop iterates over")]
#![allow(
    clippy::missing_fields_in_debug,
    reason = "a store prints the fields of the original"
)]
#![allow(clippy::struct_field_names, reason = "the field has the name of the original")]

mod cedar_action;
mod cedar_annotation;
mod cedar_binding;
mod cedar_body;
mod cedar_children;
mod cedar_components;
mod cedar_dry_run;
mod cedar_entities;
#[cfg_attr(
    not(feature = "cli"),
    allow(
        dead_code,
        reason = "a line of the program becomes an entity by a function of its own"
    )
)]
mod cedar_entity;
mod cedar_entity_diff;
#[cfg(feature = "cli")]
mod cedar_entity_lines;
mod cedar_entity_maps;
mod cedar_graph;
mod cedar_ids;
mod cedar_keyed_hash;
#[cfg(feature = "cli")]
mod cedar_lines;
mod cedar_naming;
mod cedar_policy;
mod cedar_policy_diff;
#[cfg(feature = "cli")]
mod cedar_policy_lines;
mod cedar_policy_maps;
mod cedar_policy_merge;
mod cedar_policy_set;
mod cedar_policy_set_errors;
mod cedar_queries;
#[cfg(feature = "cli")]
mod cedar_repl;
mod cedar_replay;
mod cedar_scope;
mod cedar_slice;
#[cfg(feature = "cli")]
mod cedar_store;
mod cedar_terms;
mod cedar_uid_sets;
mod handwritten;

use handwritten::{linked_map, node_map, ordered_map, shared_map};

pub use cedar_dry_run::{have_no_indirect, would_add, would_upsert};
pub use cedar_keyed_hash::{KeyedHasher, KeyedState};
pub use cedar_slice::slice;
pub use handwritten::renaming::{RenamedIds, Renaming};
pub use handwritten::scopes::{BorrowedActionConstraint, BorrowedConstraint};

/// Ids, entities, values, expressions, constraints, policies, templates and policy sets.
pub mod ast {
    pub use crate::cedar_action::{ActionConstraint, ActionTypesError, EntityIterator};
    pub use crate::cedar_annotation::{Annotation, Annotations};
    pub use crate::cedar_entity::Entity;
    pub use crate::cedar_ids::{
        ACTION_ENTITY_TYPE, AnyId, Eid, EntityType, EntityUID, EntityUIDImpl, Escaped, Id, Name, NonEmpty, ParseErrors,
        PolicyID,
    };
    pub use crate::cedar_policy::{
        Effect, LinkingError, Policy, SlotEnv, StaticPolicy, Template, TemplateBody, TemplateBodyImpl,
        TemplateValidationError, UnexpectedSlotError,
    };
    pub use crate::cedar_policy_diff::PolicySetDiff;
    pub use crate::cedar_policy_set::{
        PolicySet, PolicySetError, PolicySetGetLinksError, PolicySetPolicyRemovalError, PolicySetTemplateRemovalError,
        PolicySetUnlinkError, PolicySetValidationError,
    };
    pub use crate::cedar_scope::on_variable::{Principal, Resource, ScopeVariable, VariableConstraint};
    pub use crate::cedar_scope::{
        EntityReference, PrincipalConstraint, PrincipalOrResource, PrincipalOrResourceConstraint, ResourceConstraint,
    };
    pub use crate::cedar_terms::{
        Expr, ExprNode, ExprValidationError, ExtensionValue, Literal, PartialValue, Slot, SlotId, StaticType,
        StaticallyTyped, Unknown, Value, ValueKind, Var, is_reserved_key,
    };

    /// Annotations and their iterators.
    pub mod annotation {
        pub use crate::cedar_annotation::annotation::{Annotation, Annotations, IntoIter, Iter};
    }

    /// Entities, uids, entity types and ids of entities.
    pub mod entity {
        pub use super::{ACTION_ENTITY_TYPE, Eid, Entity, EntityType, EntityUID, EntityUIDImpl};
    }

    /// Ids and names.
    pub mod name {
        pub use super::{AnyId, Id, Name};
    }
}

/// Stores of entities.
pub mod entities {
    pub use crate::cedar_entities::{Dereference, Entities, IntoIter, Iter, TCComputation};
    pub use crate::cedar_entity::EntitiesError;
    pub use crate::cedar_entity_diff::{AncestryChange, ContentChange, StoreDiff};

    /// Errors of calls on stores and entities.
    pub mod err {
        pub use crate::cedar_entity::EntitiesError;
    }
}

/// The types of the iterators that functions return.
pub mod iters {
    pub use crate::cedar_action::{EntityIterator, iters::ActionTypeNames};
    pub use crate::cedar_entity::{Ancestors, Keys, Pairs};
    pub use crate::cedar_policy::Slots;
    pub use crate::cedar_policy_maps::{AllTemplates, IntoPolicies, LinkedIds, Policies, StaticPolicies, Templates};
    pub use crate::cedar_scope::iters::ConstraintTypeNames;
    pub use crate::cedar_uid_sets::{Uids, Union};
}

/// Source locations and parse errors.
pub mod parser {
    pub use crate::cedar_ids::Loc;

    /// Errors of texts of uids, names and identifiers.
    pub mod err {
        pub use crate::cedar_ids::ParseErrors;
        pub use crate::handwritten::parse_errors::{Expected, ParsePlace};

        /// Errors that validations of templates share with the parser of cedar-policy-core.
        pub mod parse_errors {
            pub use crate::handwritten::parse_errors::{InvalidActionType, SlotsInConditionClause};
        }
    }
}

/// The program that runs commands: on a whole input, line by line, and interactively. Needs the feature `cli`.
#[cfg(feature = "cli")]
pub mod program {
    pub use crate::cedar_repl::{ErrorMode, FIELD_HELP, POLICY_HELP, STORE_HELP, TalkError, help_texts, talk};
    pub use crate::cedar_store::{
        RunError, Session, push_not_command, run, run_and_leave, run_and_leave_with, run_with,
    };
}

/// Lists of calls on a store or a policy set.
pub mod replay {
    pub use crate::cedar_replay::{
        Answer, EntityCall, PolicyCall, replay_entities, replay_entities_with_hasher, replay_policies,
    };
}

/// Transitive closures of graphs with any type of nodes.
pub mod transitive_closure {
    pub use crate::cedar_graph::{
        HasCycle, MissingTcEdge, Result, TCNode, TcError, Work, close_dag, compute_tc as compute_tc_with_hasher,
        compute_tc_counted, enforce_tc_and_dag as enforce_tc_and_dag_with_hasher, repair_dag,
        repair_tc as repair_tc_with_hasher, repair_tc_counted,
    };
    pub use crate::handwritten::closures::{compute_tc, enforce_tc_and_dag, repair_tc};
}

// The program in the README is a documentation test.
#[cfg(doctest)]
#[doc = include_str!("../README.md")]
struct Page;
