//! Constraints on the action of a request: any action, one uid, a list of uids, or the action's slot.
use crate::by_key::compare_by_key;
use crate::expr::Expr;
use crate::invalid::{ActionTypesError, NonEmpty};
use crate::name::Loc;
use crate::slots::{SlotId, Var};
use crate::uid::{EntityType, EntityUID};
use std::fmt;
use std::slice;
use std::sync::Arc;

/// A constraint on the action of a request.
///
/// Constraints are ordered by kind, in the order of the variants below. Constraints of one kind are ordered by their
/// uids, item by item. Comparisons ignore locations.
///
/// ```
/// use cedar_store_proved::ast::{ActionConstraint, EntityUID};
/// let uid = |text| EntityUID::from_normalized_str(text).unwrap();
/// let (view, edit) = (uid(r#"Action::"view""#), uid(r#"Action::"edit""#));
/// let actions = ActionConstraint::is_in([view.clone(), edit.clone()]);
/// assert_eq!(actions.to_string(), r#"action in [Action::"view",Action::"edit"]"#);
/// assert_eq!(actions.as_expr().to_string(), r#"action in [Action::"view", Action::"edit"]"#);
/// // a list is given from its back
/// assert!(actions.iter_euids().eq([&edit, &view]));
/// ```
#[derive(Clone, Debug)]
pub enum ActionConstraint {
    /// Any action.
    Any,
    /// An action that is in one of these uids.
    In(Vec<Arc<EntityUID>>),
    /// The action with this uid.
    Eq(Arc<EntityUID>),
    /// An action that is in the uid bound to the action's slot. The location of the slot, if it is known.
    InSlot(Option<Loc>),
    /// The action with the uid bound to the action's slot. The location of the slot, if it is known.
    EqSlot(Option<Loc>),
}

impl ActionConstraint {
    /// Creates a constraint that allows any action.
    pub fn any() -> ActionConstraint {
        ActionConstraint::Any
    }

    /// Creates a constraint that requires the action to be in one of these uids. Keeps their order.
    pub fn is_in(euids: impl IntoIterator<Item = EntityUID>) -> ActionConstraint {
        ActionConstraint::In(euids.into_iter().map(Arc::new).collect())
    }

    /// Creates a constraint that requires the action to be equal to this uid.
    pub fn is_eq(euid: EntityUID) -> ActionConstraint {
        ActionConstraint::Eq(Arc::new(euid))
    }

    /// Creates a constraint that requires the action to be in the uid bound to its slot. The slot has no location.
    pub fn is_in_slot() -> ActionConstraint {
        ActionConstraint::InSlot(None)
    }

    /// Creates a constraint that requires the action to be equal to the uid bound to its slot. The slot has no
    /// location.
    pub fn is_eq_slot() -> ActionConstraint {
        ActionConstraint::EqSlot(None)
    }

    /// Replaces the slot by this uid. `InSlot` becomes a list with only this uid, and `EqSlot` becomes equality with
    /// it. Any other constraint is returned unchanged.
    pub fn with_filled_slot(self, euid: Arc<EntityUID>) -> ActionConstraint {
        match self {
            ActionConstraint::InSlot(_) => ActionConstraint::In(vec![euid]),
            ActionConstraint::EqSlot(_) => ActionConstraint::Eq(euid),
            other => other,
        }
    }

    /// Returns the constraint as an expression: `true`, `action in` a set of the uids in their order, `action ==` the
    /// uid, or `action in` or `action ==` the slot. The slot node has the location that the constraint stores.
    pub fn as_expr(&self) -> Expr {
        let action = || Expr::var(Var::Action);
        let slot =
            |loc: &Option<Loc>| Expr::slot(SlotId::Action).with_maybe_source_loc(loc.clone());
        match self {
            ActionConstraint::Any => Expr::val(true),
            ActionConstraint::In(euids) => {
                Expr::is_in(action(), Expr::set(euids.iter().map(Expr::shared_uid)))
            }
            ActionConstraint::Eq(euid) => Expr::is_eq(action(), Expr::shared_uid(euid)),
            ActionConstraint::InSlot(loc) => Expr::is_in(action(), slot(loc)),
            ActionConstraint::EqSlot(loc) => Expr::is_eq(action(), slot(loc)),
        }
    }

    // Returns the uids of the constraint, in their order.
    pub(crate) fn uids(&self) -> &[Arc<EntityUID>] {
        match self {
            ActionConstraint::In(euids) => euids,
            ActionConstraint::Eq(euid) => slice::from_ref(euid),
            ActionConstraint::Any | ActionConstraint::InSlot(_) | ActionConstraint::EqSlot(_) => {
                &[]
            }
        }
    }

    /// Returns the location of the slot, if the constraint refers to the slot.
    pub(crate) fn slot(&self) -> Option<&Option<Loc>> {
        match self {
            ActionConstraint::InSlot(loc) | ActionConstraint::EqSlot(loc) => Some(loc),
            _ => None,
        }
    }

    /// Iterates over the uids of the constraint. A list is iterated from its end, with its duplicates. A constraint on
    /// the slot has no uids.
    pub fn iter_euids(&self) -> EntityIterator<'_> {
        match (self, self.uids()) {
            (ActionConstraint::Eq(one), _) => EntityIterator::One(one),
            (_, []) => EntityIterator::None,
            (_, list) => EntityIterator::Bunch(list.iter().map(|euid| &**euid).collect()),
        }
    }

    /// Iterates over the types of the uids, in the order of [`ActionConstraint::iter_euids`].
    pub fn iter_entity_type_names(&self) -> ActionTypeNames<'_> {
        let euids = self.iter_euids();
        ActionTypeNames { euids }
    }

    /// Checks whether each uid is an action, which means that the last part of its type is `Action`. A constraint on
    /// the slot is valid.
    ///
    /// # Errors
    ///
    /// - `NotActions`: at least one uid is not an action. The error contains exactly the uids that are not actions, in
    ///   the order of the list, with duplicates.
    pub fn check_action_types(&self) -> Result<(), ActionTypesError> {
        let mut others = self.uids().iter().filter(|euid| !euid.is_action()).cloned();
        match others.next() {
            None => Ok(()),
            Some(head) => Err(ActionTypesError::NotActions(NonEmpty {
                head,
                tail: others.collect(),
            })),
        }
    }

    /// Returns the constraint itself if each uid is an action.
    ///
    /// # Errors
    ///
    /// - `NotActions`: at least one uid is not an action; see [`ActionConstraint::check_action_types`].
    pub fn contains_only_action_types(self) -> Result<ActionConstraint, ActionTypesError> {
        self.check_action_types()?;
        Ok(self)
    }

    // Returns the comparison key: the position of the kind among all kinds, and the uids.
    fn key(&self) -> (u8, &[Arc<EntityUID>]) {
        let kind = match self {
            ActionConstraint::Any => 0,
            ActionConstraint::In(_) => 1,
            ActionConstraint::Eq(_) => 2,
            ActionConstraint::InSlot(_) => 3,
            ActionConstraint::EqSlot(_) => 4,
        };
        (kind, self.uids())
    }
}

compare_by_key!(ActionConstraint);

impl fmt::Display for ActionConstraint {
    fn fmt(&self, f: &mut fmt::Formatter<'_>) -> fmt::Result {
        match self {
            ActionConstraint::Any => f.write_str("action"),
            ActionConstraint::In(euids) => {
                let texts: Vec<String> = euids.iter().map(|euid| euid.to_string()).collect();
                write!(f, "action in [{}]", texts.join(","))
            }
            ActionConstraint::Eq(euid) => write!(f, "action == {euid}"),
            ActionConstraint::InSlot(_) => f.write_str("action in ?action"),
            ActionConstraint::EqSlot(_) => f.write_str("action == ?action"),
        }
    }
}

/// An iterator over the uids of an action constraint.
#[derive(Clone, Debug)]
pub enum EntityIterator<'a> {
    /// No uid.
    None,
    /// This uid, once.
    One(&'a EntityUID),
    /// The uids of this list, from its end.
    Bunch(Vec<&'a EntityUID>),
}

impl<'a> Iterator for EntityIterator<'a> {
    type Item = &'a EntityUID;

    fn next(&mut self) -> Option<&'a EntityUID> {
        match self {
            EntityIterator::None => None,
            EntityIterator::One(euid) => {
                let euid = *euid;
                *self = EntityIterator::None;
                Some(euid)
            }
            EntityIterator::Bunch(euids) => euids.pop(),
        }
    }
}

/// An iterator over the types of the uids of an action constraint, in the order of [`EntityIterator`].
#[derive(Clone, Debug)]
pub struct ActionTypeNames<'a> {
    euids: EntityIterator<'a>,
}

impl<'a> Iterator for ActionTypeNames<'a> {
    type Item = &'a EntityType;

    fn next(&mut self) -> Option<&'a EntityType> {
        self.euids.next().map(EntityUID::entity_type)
    }
}
