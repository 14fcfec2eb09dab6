//! Errors, with one type for each kind of call. The types and variants have the names of the package `cedar-store`.
//! Each type has an additional variant `Other` for failures that `cedar-store` does not report.
use crate::error::{Error, Reason};
use crate::ffi;
use crate::policy::PolicyID;
use crate::slots::SlotId;
use crate::uid::EntityUID;
use std::fmt;
use std::fmt::{Debug, Display};

/// An error in a text of a uid, a name or an identifier.
#[derive(Clone, Debug, PartialEq, Eq)]
pub enum ParseErrors {
    /// The text is not a uid. The part before its first `::"`, if there is one, is a name.
    NotNormalized,
    /// The text is not an identifier or not a name, whichever the call expects. For a uid: the part before the first
    /// `::"` is not a name.
    InvalidName,
    /// An allocation failed.
    Other(Error),
}

impl ParseErrors {
    /// Returns the error for a text that is not a uid.
    pub(crate) fn of_uid(text: &str) -> ParseErrors {
        let is_name =
            |ty: &str| ffi::make_uid(ty, "").map_err(Reason::of).err() != Some(Reason::NotAName);
        match text.split_once("::\"") {
            Some((ty, _)) if text.ends_with('"') && !is_name(ty) => ParseErrors::InvalidName,
            _ => ParseErrors::NotNormalized,
        }
    }
}

/// Three keys which show that ancestors are not closed: `child` has an edge to `parent` and `parent` has an edge to
/// `grandparent`, but `child` has no edge to `grandparent`.
#[derive(Clone, Debug, PartialEq, Eq)]
pub struct MissingTcEdge<K> {
    /// The key without the expected edge.
    pub child: K,
    /// A key to which `child` has an edge.
    pub parent: K,
    /// A key to which `parent` has an edge and `child` does not.
    pub grandparent: K,
}

/// A key that is part of a cycle.
#[derive(Clone, Debug, PartialEq, Eq)]
pub struct HasCycle<K> {
    vertex: K,
}

impl<K> HasCycle<K> {
    /// Creates an error with this key.
    pub fn new(vertex: K) -> HasCycle<K> {
        HasCycle { vertex }
    }

    /// Returns the key that is part of a cycle.
    pub fn vertex_with_loop(&self) -> &K {
        &self.vertex
    }

    /// Returns the key, by value.
    pub fn into_vertex(self) -> K {
        self.vertex
    }
}

/// An error of the transitive closure of ancestors.
#[derive(Clone, Debug, PartialEq, Eq)]
pub enum TcError<K: Debug + Display> {
    /// The ancestors are not closed: an edge is missing.
    MissingTcEdge(MissingTcEdge<K>),
    /// The ancestors have a cycle.
    HasCycle(HasCycle<K>),
}

/// An error of a call on a store, or a fault that a check of a store reports.
///
/// ```
/// use cedar_store_proved::ast::{Entity, EntityUID};
/// use cedar_store_proved::entities::{Entities, EntitiesError, TCComputation};
/// use cedar_store_proved::transitive_closure::TcError;
/// let a = EntityUID::from_normalized_str(r#"A::"a""#).unwrap();
/// let own_parent = Entity::with_uid(a.clone()).with_parent(a.clone());
/// match Entities::from_entities([own_parent], TCComputation::ComputeNow) {
///     Err(EntitiesError::TransitiveClosureError(TcError::HasCycle(cycle))) => {
///         assert_eq!(cycle.vertex_with_loop(), &a);
///     }
///     other => panic!("{other:?}"),
/// }
/// ```
#[derive(Clone, Debug, PartialEq, Eq)]
pub enum EntitiesError {
    /// Two entities have the same uid, but are not deeply equal.
    Duplicate(EntityUID),
    /// The ancestors have a cycle, or an ancestor of an ancestor is missing.
    TransitiveClosureError(TcError<EntityUID>),
    /// An entity is its own ancestor. A check of a store reports this as a cycle instead, because it checks the closure
    /// first.
    SelfAncestor {
        /// The uid of the entity.
        uid: EntityUID,
    },
    /// An ancestor is both a parent and an indirect ancestor.
    DuplicateAncestor {
        /// The uid of the entity.
        uid: EntityUID,
        /// The uid of the ancestor.
        ancestor: EntityUID,
    },
    /// An action has an ancestor that is not an action.
    ActionParentIsNotAction {
        /// The uid of the action.
        uid: EntityUID,
        /// The uid of the ancestor.
        parent: EntityUID,
    },
    /// A key of a record is reserved.
    ReservedKey(String),
    /// An allocation failed (`Reason::Memory`), or a value or an expression has more than 1,000 levels
    /// (`Reason::TooDeep`).
    Other(Error),
}

/// An error of a call that adds policies or templates to a set.
#[derive(Clone, Debug, PartialEq, Eq)]
pub enum PolicySetError {
    /// The id is already bound.
    Occupied {
        /// The id.
        id: PolicyID,
    },
    /// An allocation failed (`Reason::Memory`), a clause has more than 1,000 levels (`Reason::TooDeep`), or a static
    /// policy contains a slot (`Reason::NotStatic`).
    Other(Error),
}

/// An error of a call that links a template.
#[derive(Clone, Debug, PartialEq, Eq)]
pub enum LinkingError {
    /// The bound ids are not the ids of the template's slots.
    ArityError {
        /// The slots of the template that are not bound.
        unbound_values: Vec<SlotId>,
        /// The bound ids that are not slots of the template, in ascending order.
        extra_values: Vec<SlotId>,
    },
    /// The action's slot is bound to a uid that is not an action.
    NotAnAction {
        /// The uid.
        uid: EntityUID,
    },
    /// No template has this id.
    NoSuchTemplate {
        /// The requested id.
        id: PolicyID,
    },
    /// The id of the new link is already bound.
    PolicyIdConflict {
        /// The id.
        id: PolicyID,
    },
    /// An allocation failed.
    Other(Error),
}

/// An error of a call that removes a link.
#[derive(Clone, Debug, PartialEq, Eq)]
pub enum PolicySetUnlinkError {
    /// The id is not bound.
    UnlinkingError(PolicyID),
    /// The id belongs to a static policy or a template.
    NotLinkError(PolicyID),
    /// An allocation failed.
    Other(Error),
}

/// An error of a call that removes a static policy.
#[derive(Clone, Debug, PartialEq, Eq)]
pub enum PolicySetPolicyRemovalError {
    /// No policy has this id.
    RemovePolicyNoLinkError(PolicyID),
    /// The id belongs to a link.
    RemovePolicyNoTemplateError(PolicyID),
    /// An allocation failed.
    Other(Error),
}

/// An error of a call that removes a template.
#[derive(Clone, Debug, PartialEq, Eq)]
pub enum PolicySetTemplateRemovalError {
    /// The id is not bound.
    RemovePolicyNoTemplateError(PolicyID),
    /// The template with this id has links.
    RemoveTemplateWithLinksError(PolicyID),
    /// The id belongs to a static policy or a link.
    NotTemplateError(PolicyID),
    /// An allocation failed.
    Other(Error),
}

/// An error of a call that lists the policies of a template.
#[derive(Clone, Debug, PartialEq, Eq)]
pub enum PolicySetGetLinksError {
    /// No template or static policy has this id.
    MissingTemplate(PolicyID),
}

// ---- conversions from `Error`

fn three_uids(uids: Vec<EntityUID>) -> Option<[EntityUID; 3]> {
    uids.try_into().ok()
}

impl From<Error> for EntitiesError {
    fn from(error: Error) -> EntitiesError {
        let mut uids = error.uids().into_iter();
        match (error.reason(), uids.next(), uids.next()) {
            (Reason::Duplicate, Some(uid), _) => EntitiesError::Duplicate(uid),
            (Reason::Cycle, Some(uid), _) => {
                EntitiesError::TransitiveClosureError(TcError::HasCycle(HasCycle::new(uid)))
            }
            (Reason::NotClosed, ..) => match three_uids(error.uids()) {
                Some([child, parent, grandparent]) => {
                    let edge = MissingTcEdge {
                        child,
                        parent,
                        grandparent,
                    };
                    EntitiesError::TransitiveClosureError(TcError::MissingTcEdge(edge))
                }
                None => EntitiesError::Other(error),
            },
            (Reason::SelfAncestor, Some(uid), _) => EntitiesError::SelfAncestor { uid },
            (Reason::DuplicateAncestor, Some(uid), Some(ancestor)) => {
                EntitiesError::DuplicateAncestor { uid, ancestor }
            }
            (Reason::ActionParentIsNotAction, Some(uid), Some(parent)) => {
                EntitiesError::ActionParentIsNotAction { uid, parent }
            }
            (Reason::ReservedKey, ..) => EntitiesError::ReservedKey(error.details().to_owned()),
            _ => EntitiesError::Other(error),
        }
    }
}

impl From<Error> for PolicySetError {
    fn from(error: Error) -> PolicySetError {
        match error.reason() {
            Reason::Occupied => PolicySetError::Occupied { id: error.id() },
            _ => PolicySetError::Other(error),
        }
    }
}

// Parses a comma-separated list of slots.
fn parse_slots(text: &str) -> Vec<SlotId> {
    let slots = text.split(',');
    let slot = |word: &str| SlotId::ALL.into_iter().find(|id| id.to_string() == word);
    slots.filter_map(slot).collect()
}

const UNBOUND: &str = "the following slots were not provided as arguments: ";
const EXTRA: &str =
    "he following slots were provided as arguments, but did not exist in the template: ";

impl From<Error> for LinkingError {
    fn from(error: Error) -> LinkingError {
        match (error.reason(), error.uids().pop()) {
            (Reason::Arity, _) => {
                let (before, extra) = error
                    .details()
                    .split_once(EXTRA)
                    .unwrap_or((error.details(), ""));
                let unbound = before.strip_prefix(UNBOUND).unwrap_or_default();
                LinkingError::ArityError {
                    unbound_values: parse_slots(unbound.trim_end_matches(". T")),
                    extra_values: parse_slots(extra),
                }
            }
            (Reason::NotAnAction, Some(uid)) => LinkingError::NotAnAction { uid },
            (Reason::NoSuchTemplate, _) => LinkingError::NoSuchTemplate { id: error.id() },
            (Reason::IdConflict, _) => LinkingError::PolicyIdConflict { id: error.id() },
            _ => LinkingError::Other(error),
        }
    }
}

impl From<Error> for PolicySetUnlinkError {
    fn from(error: Error) -> PolicySetUnlinkError {
        match error.reason() {
            Reason::NoLink => PolicySetUnlinkError::UnlinkingError(error.id()),
            Reason::NotALink => PolicySetUnlinkError::NotLinkError(error.id()),
            _ => PolicySetUnlinkError::Other(error),
        }
    }
}

impl From<Error> for PolicySetPolicyRemovalError {
    fn from(error: Error) -> PolicySetPolicyRemovalError {
        use PolicySetPolicyRemovalError as E;
        match error.reason() {
            Reason::NoStatic => E::RemovePolicyNoLinkError(error.id()),
            Reason::NotStatic => E::RemovePolicyNoTemplateError(error.id()),
            _ => E::Other(error),
        }
    }
}

impl From<Error> for PolicySetTemplateRemovalError {
    fn from(error: Error) -> PolicySetTemplateRemovalError {
        use PolicySetTemplateRemovalError as E;
        match error.reason() {
            Reason::NoTemplate => E::RemovePolicyNoTemplateError(error.id()),
            Reason::WithLinks => E::RemoveTemplateWithLinksError(error.id()),
            Reason::NotATemplate => E::NotTemplateError(error.id()),
            _ => E::Other(error),
        }
    }
}

// ---- conversions into `Error`

impl From<ParseErrors> for Error {
    fn from(error: ParseErrors) -> Error {
        match error {
            ParseErrors::NotNormalized => Error::new(4, Vec::new),
            ParseErrors::InvalidName => Error::new(27, Vec::new),
            ParseErrors::Other(error) => error,
        }
    }
}

impl From<EntitiesError> for Error {
    fn from(error: EntitiesError) -> Error {
        use EntitiesError as E;
        match error {
            E::Duplicate(uid) => Error::with_names(Reason::Duplicate, &[uid]),
            E::TransitiveClosureError(TcError::HasCycle(cycle)) => {
                Error::with_names(Reason::Cycle, &[cycle.vertex])
            }
            E::TransitiveClosureError(TcError::MissingTcEdge(edge)) => {
                let uids = [edge.child, edge.parent, edge.grandparent];
                Error::with_names(Reason::NotClosed, &uids)
            }
            E::SelfAncestor { uid } => Error::with_names(Reason::SelfAncestor, &[uid]),
            E::DuplicateAncestor { uid, ancestor } => {
                Error::with_names(Reason::DuplicateAncestor, &[uid, ancestor])
            }
            E::ActionParentIsNotAction { uid, parent } => {
                Error::with_names(Reason::ActionParentIsNotAction, &[uid, parent])
            }
            E::ReservedKey(key) => Error::with_names(Reason::ReservedKey, &[key]),
            E::Other(error) => error,
        }
    }
}

impl From<PolicySetError> for Error {
    fn from(error: PolicySetError) -> Error {
        match error {
            PolicySetError::Occupied { id } => Error::with_names(Reason::Occupied, &[id.as_ref()]),
            PolicySetError::Other(error) => error,
        }
    }
}

impl From<LinkingError> for Error {
    fn from(error: LinkingError) -> Error {
        match error {
            LinkingError::ArityError { .. } => Error::with_names(Reason::Arity, &[error]),
            LinkingError::NotAnAction { uid } => Error::with_names(Reason::NotAnAction, &[uid]),
            LinkingError::NoSuchTemplate { id } => {
                Error::with_names(Reason::NoSuchTemplate, &[id.as_ref()])
            }
            LinkingError::PolicyIdConflict { id } => {
                Error::with_names(Reason::IdConflict, &[id.as_ref()])
            }
            LinkingError::Other(error) => error,
        }
    }
}

impl From<PolicySetUnlinkError> for Error {
    fn from(error: PolicySetUnlinkError) -> Error {
        use PolicySetUnlinkError as E;
        match error {
            E::UnlinkingError(id) => Error::with_names(Reason::NoLink, &[id.as_ref()]),
            E::NotLinkError(id) => Error::with_names(Reason::NotALink, &[id.as_ref()]),
            E::Other(error) => error,
        }
    }
}

impl From<PolicySetPolicyRemovalError> for Error {
    fn from(error: PolicySetPolicyRemovalError) -> Error {
        use PolicySetPolicyRemovalError as E;
        match error {
            E::RemovePolicyNoLinkError(id) => Error::with_names(Reason::NoStatic, &[id.as_ref()]),
            E::RemovePolicyNoTemplateError(id) => {
                Error::with_names(Reason::NotStatic, &[id.as_ref()])
            }
            E::Other(error) => error,
        }
    }
}

impl From<PolicySetTemplateRemovalError> for Error {
    fn from(error: PolicySetTemplateRemovalError) -> Error {
        use PolicySetTemplateRemovalError as E;
        match error {
            E::RemovePolicyNoTemplateError(id) => {
                Error::with_names(Reason::NoTemplate, &[id.as_ref()])
            }
            E::RemoveTemplateWithLinksError(id) => {
                Error::with_names(Reason::WithLinks, &[id.as_ref()])
            }
            E::NotTemplateError(id) => Error::with_names(Reason::NotATemplate, &[id.as_ref()]),
            E::Other(error) => error,
        }
    }
}

impl From<PolicySetGetLinksError> for Error {
    fn from(_: PolicySetGetLinksError) -> Error {
        Error::new(26, Vec::new)
    }
}

// ---- messages, which are the messages of `cedar-store`

impl fmt::Display for ParseErrors {
    fn fmt(&self, f: &mut fmt::Formatter<'_>) -> fmt::Result {
        match self {
            ParseErrors::NotNormalized => f.write_str("not a normalized entity uid"),
            ParseErrors::InvalidName => f.write_str("not a valid name"),
            ParseErrors::Other(error) => write!(f, "{error}"),
        }
    }
}

impl<K: Debug + Display> fmt::Display for TcError<K> {
    fn fmt(&self, f: &mut fmt::Formatter<'_>) -> fmt::Result {
        match self {
            TcError::MissingTcEdge(MissingTcEdge { child, parent, grandparent }) => write!(
                f,
                "expected all transitive edges to exist, but `{child}` -> `{parent}` and `{parent}` -> `{grandparent}` \
                 exists, while `{child}` -> `{grandparent}` does not"
            ),
            TcError::HasCycle(cycle) => {
                write!(f, "input graph has a cycle containing vertex `{}`", cycle.vertex)
            }
        }
    }
}

impl fmt::Display for EntitiesError {
    fn fmt(&self, f: &mut fmt::Formatter<'_>) -> fmt::Result {
        use EntitiesError as E;
        match self {
            E::Duplicate(uid) => write!(f, "duplicate entity `{uid}`"),
            E::TransitiveClosureError(error) => write!(f, "{error}"),
            E::SelfAncestor { uid } => write!(f, "entity `{uid}` is its own ancestor"),
            E::DuplicateAncestor { uid, ancestor } => {
                write!(
                    f,
                    "entity `{uid}` has `{ancestor}` as parent and as indirect ancestor"
                )
            }
            E::ActionParentIsNotAction { uid, parent } => {
                write!(
                    f,
                    "action `{uid}` has the ancestor `{parent}`, which is not an action"
                )
            }
            E::ReservedKey(key) => write!(f, "the key `{key}` is reserved"),
            E::Other(error) => write!(f, "{error}"),
        }
    }
}

impl fmt::Display for PolicySetError {
    fn fmt(&self, f: &mut fmt::Formatter<'_>) -> fmt::Result {
        match self {
            PolicySetError::Occupied { id } => write!(f, "duplicate template or policy id `{id}`"),
            PolicySetError::Other(error) => write!(f, "{error}"),
        }
    }
}

fn join_slots(slots: &[SlotId]) -> String {
    slots
        .iter()
        .map(SlotId::to_string)
        .collect::<Vec<_>>()
        .join(",")
}

impl fmt::Display for LinkingError {
    fn fmt(&self, f: &mut fmt::Formatter<'_>) -> fmt::Result {
        match self {
            LinkingError::ArityError {
                unbound_values,
                extra_values,
            } => {
                let (unbound, extra) = (join_slots(unbound_values), join_slots(extra_values));
                match (unbound.is_empty(), extra.is_empty()) {
                    (_, true) => write!(f, "{UNBOUND}{unbound}"),
                    (true, false) => write!(f, "t{EXTRA}{extra}"),
                    (false, false) => write!(f, "{UNBOUND}{unbound}. T{EXTRA}{extra}"),
                }
            }
            LinkingError::NotAnAction { uid } => {
                write!(
                    f,
                    "the action slot is bound to `{uid}`, which is not an action"
                )
            }
            LinkingError::NoSuchTemplate { id } => {
                write!(f, "failed to find a template with id `{id}`")
            }
            LinkingError::PolicyIdConflict { id } => {
                write!(
                    f,
                    "template-linked policy id `{id}` conflicts with an existing policy id"
                )
            }
            LinkingError::Other(error) => write!(f, "{error}"),
        }
    }
}

impl fmt::Display for PolicySetUnlinkError {
    fn fmt(&self, f: &mut fmt::Formatter<'_>) -> fmt::Result {
        use PolicySetUnlinkError as E;
        match self {
            E::UnlinkingError(id) => {
                write!(
                    f,
                    "unable to unlink policy id `{id}` because it does not exist"
                )
            }
            E::NotLinkError(id) => {
                write!(
                    f,
                    "unable to remove link with policy id `{id}` because it is a static policy"
                )
            }
            E::Other(error) => write!(f, "{error}"),
        }
    }
}

impl fmt::Display for PolicySetPolicyRemovalError {
    fn fmt(&self, f: &mut fmt::Formatter<'_>) -> fmt::Result {
        use PolicySetPolicyRemovalError as E;
        let (id, list) = match self {
            E::RemovePolicyNoLinkError(id) => (id, "link"),
            E::RemovePolicyNoTemplateError(id) => (id, "template"),
            E::Other(error) => return write!(f, "{error}"),
        };
        write!(
            f,
            "unable to remove static policy id `{id}` from {list} list because it does not exist"
        )
    }
}

impl fmt::Display for PolicySetTemplateRemovalError {
    fn fmt(&self, f: &mut fmt::Formatter<'_>) -> fmt::Result {
        use PolicySetTemplateRemovalError as E;
        let (id, why) = match self {
            E::RemovePolicyNoTemplateError(id) => (id, "does not exist"),
            E::RemoveTemplateWithLinksError(id) => (id, "still has active links"),
            E::NotTemplateError(id) => {
                return write!(
                    f,
                    "unable to remove template with policy id `{id}` because it is a static policy"
                );
            }
            E::Other(error) => return write!(f, "{error}"),
        };
        write!(
            f,
            "unable to remove template id `{id}` from template list because it {why}"
        )
    }
}

impl fmt::Display for PolicySetGetLinksError {
    fn fmt(&self, f: &mut fmt::Formatter<'_>) -> fmt::Result {
        let PolicySetGetLinksError::MissingTemplate(id) = self;
        write!(f, "No template `{id}`")
    }
}

impl<K: Debug + Display> std::error::Error for TcError<K> {}
impl std::error::Error for ParseErrors {}
impl std::error::Error for EntitiesError {}
impl std::error::Error for PolicySetError {}
impl std::error::Error for LinkingError {}
impl std::error::Error for PolicySetUnlinkError {}
impl std::error::Error for PolicySetPolicyRemovalError {}
impl std::error::Error for PolicySetTemplateRemovalError {}
impl std::error::Error for PolicySetGetLinksError {}
