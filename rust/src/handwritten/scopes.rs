//! Constraints of a policy that borrow from it, and the decision whether a policy applies to a request by its scope.
use crate::ast::{
    ActionConstraint, EntityReference, EntityType, EntityUID, Policy, PrincipalOrResourceConstraint, SlotId,
};
use crate::cedar_binding::bound_to;
use crate::entities::Entities;
use std::hash::BuildHasher;
use std::sync::Arc;

/// A constraint on the principal or the resource that borrows from its policy, with the policy's uids for its slots.
///
/// [`PrincipalOrResourceConstraint`] is the owned form.
///
/// # Differences from cedar-policy-core
///
/// The original has no such type.
#[derive(Clone, Copy, Debug, PartialEq, Eq)]
pub enum BorrowedConstraint<'a> {
    /// Any entity.
    Any,
    /// An entity that is in this one: the entity itself, or a descendant of it.
    In(&'a EntityUID),
    /// Only this entity.
    Eq(&'a EntityUID),
    /// An entity of this type.
    Is(&'a EntityType),
    /// An entity of this type that is in this entity.
    IsIn(&'a EntityType, &'a EntityUID),
    /// A constraint with a slot for which the policy has no uid. No call creates a policy with one.
    Unbound,
}

/// Returns whether an entity is in another one: it is the same, or a descendant in the store.
fn is_in<S: BuildHasher + Clone>(store: &Entities<S>, uid: &EntityUID, other: &EntityUID) -> bool {
    uid == other || store.stored(uid).is_some_and(|entity| entity.is_descendant_of(other))
}

impl<'a> BorrowedConstraint<'a> {
    /// Returns the constraint with this uid for its slot.
    fn of(constraint: &'a PrincipalOrResourceConstraint, bound: Option<&'a EntityUID>) -> Self {
        let uid_of = |reference: &'a EntityReference| match reference {
            EntityReference::EUID(uid) => Some(&**uid),
            EntityReference::Slot(_) => bound,
        };
        match constraint {
            PrincipalOrResourceConstraint::Any => Self::Any,
            PrincipalOrResourceConstraint::In(reference) => uid_of(reference).map_or(Self::Unbound, Self::In),
            PrincipalOrResourceConstraint::Eq(reference) => uid_of(reference).map_or(Self::Unbound, Self::Eq),
            PrincipalOrResourceConstraint::Is(ty) => Self::Is(ty),
            PrincipalOrResourceConstraint::IsIn(ty, reference) => {
                uid_of(reference).map_or(Self::Unbound, |uid| Self::IsIn(ty, uid))
            }
        }
    }

    /// Returns whether an entity satisfies the constraint, given its ancestors in a store. An entity that the store does
    /// not have is in itself only. Does not allocate.
    ///
    /// # Examples
    ///
    /// ```
    /// use cedar_store::BorrowedConstraint;
    /// use cedar_store::ast::{Entity, EntityUID};
    /// use cedar_store::entities::{Entities, TCComputation};
    ///
    /// let staff: EntityUID = r#"Group::"staff""#.parse()?;
    /// let mut alice = Entity::with_uid(r#"User::"alice""#.parse()?);
    /// alice.add_parent(staff.clone());
    /// let uid = alice.uid().clone();
    /// let store = Entities::from_entities([alice], TCComputation::ComputeNow)?;
    ///
    /// assert!(BorrowedConstraint::In(&staff).is_satisfied_by(&uid, &store));
    /// assert!(!BorrowedConstraint::Eq(&staff).is_satisfied_by(&uid, &store));
    /// # Ok::<(), Box<dyn std::error::Error>>(())
    /// ```
    pub fn is_satisfied_by<S: BuildHasher + Clone>(&self, uid: &EntityUID, entities: &Entities<S>) -> bool {
        match self {
            Self::Any => true,
            Self::In(other) => is_in(entities, uid, other),
            Self::Eq(other) => uid == *other,
            Self::Is(ty) => uid.entity_type() == *ty,
            Self::IsIn(ty, other) => uid.entity_type() == *ty && is_in(entities, uid, other),
            Self::Unbound => false,
        }
    }
}

/// A constraint on the action that borrows from its policy, with the policy's uid for its slot.
///
/// [`ActionConstraint`] is the owned form.
///
/// # Differences from cedar-policy-core
///
/// The original has no such type.
#[derive(Clone, Copy, Debug, PartialEq, Eq)]
pub enum BorrowedActionConstraint<'a> {
    /// Any action.
    Any,
    /// An action that is in one of these actions.
    In(&'a [Arc<EntityUID>]),
    /// An action that is in the action of the slot.
    InBound(&'a EntityUID),
    /// Only this action.
    Eq(&'a EntityUID),
    /// A constraint with a slot for which the policy has no uid. No call creates a policy with one.
    Unbound,
}

impl<'a> BorrowedActionConstraint<'a> {
    /// Returns the constraint with this uid for its slot.
    fn of(constraint: &'a ActionConstraint, bound: Option<&'a EntityUID>) -> Self {
        match constraint {
            ActionConstraint::Any => Self::Any,
            ActionConstraint::In(uids) => Self::In(uids),
            ActionConstraint::Eq(uid) => Self::Eq(uid),
            ActionConstraint::InSlot(_) => bound.map_or(Self::Unbound, Self::InBound),
            ActionConstraint::EqSlot(_) => bound.map_or(Self::Unbound, Self::Eq),
        }
    }

    /// Returns whether an action satisfies the constraint, given its ancestors in a store. An action that the store does
    /// not have is in itself only. Does not allocate.
    ///
    /// # Examples
    ///
    /// ```
    /// use cedar_store::BorrowedActionConstraint;
    /// use cedar_store::ast::EntityUID;
    /// use cedar_store::entities::Entities;
    ///
    /// let (view, edit): (EntityUID, EntityUID) = (r#"Action::"view""#.parse()?, r#"Action::"edit""#.parse()?);
    /// let only_view = BorrowedActionConstraint::Eq(&view);
    /// assert!(only_view.is_satisfied_by(&view, &Entities::new()));
    /// assert!(!only_view.is_satisfied_by(&edit, &Entities::new()));
    /// # Ok::<(), Box<dyn std::error::Error>>(())
    /// ```
    pub fn is_satisfied_by<S: BuildHasher + Clone>(&self, action: &EntityUID, entities: &Entities<S>) -> bool {
        match self {
            Self::Any => true,
            Self::In(uids) => {
                let stored = entities.stored(action);
                let is_in = |uid: &EntityUID| action == uid || stored.is_some_and(|it| it.is_descendant_of(uid));
                uids.iter().any(|uid| is_in(uid))
            }
            Self::InBound(uid) => is_in(entities, action, uid),
            Self::Eq(uid) => action == *uid,
            Self::Unbound => false,
        }
    }
}

impl Policy {
    /// Returns the constraint on the principal, borrowed from the policy. It is the constraint of
    /// [`Policy::principal_constraint`]. Does not allocate.
    ///
    /// # Differences from cedar-policy-core
    ///
    /// The original has no such function.
    ///
    /// # Examples
    ///
    /// ```
    /// use cedar_store::BorrowedConstraint;
    /// use cedar_store::ast::{Effect, Expr, Policy};
    ///
    /// let policy = Policy::from_when_clause(Effect::Permit, Expr::val(true), "allow-all".into(), None);
    /// assert_eq!(policy.borrowed_principal_constraint(), BorrowedConstraint::Any);
    /// ```
    #[must_use]
    pub fn borrowed_principal_constraint(&self) -> BorrowedConstraint<'_> {
        let bound = bound_to(self.env(), SlotId::principal());
        BorrowedConstraint::of(self.template().principal_constraint().as_inner(), bound)
    }

    /// Returns the constraint on the resource, borrowed from the policy. It is the constraint of
    /// [`Policy::resource_constraint`]. Does not allocate.
    ///
    /// # Differences from cedar-policy-core
    ///
    /// The original has no such function.
    #[must_use]
    pub fn borrowed_resource_constraint(&self) -> BorrowedConstraint<'_> {
        let bound = bound_to(self.env(), SlotId::resource());
        BorrowedConstraint::of(self.template().resource_constraint().as_inner(), bound)
    }

    /// Returns the constraint on the action, borrowed from the policy. It is the constraint of
    /// [`Policy::action_constraint`]. Does not allocate.
    ///
    /// # Differences from cedar-policy-core
    ///
    /// The original has no slot for the action, and returns a reference from `action_constraint`.
    ///
    /// # Examples
    ///
    /// ```
    /// use cedar_store::BorrowedActionConstraint;
    /// use cedar_store::ast::{Effect, Expr, Policy};
    ///
    /// let policy = Policy::from_when_clause(Effect::Permit, Expr::val(true), "allow-all".into(), None);
    /// assert_eq!(policy.borrowed_action_constraint(), BorrowedActionConstraint::Any);
    /// ```
    #[must_use]
    pub fn borrowed_action_constraint(&self) -> BorrowedActionConstraint<'_> {
        let bound = bound_to(self.env(), SlotId::action());
        BorrowedActionConstraint::of(self.template().action_constraint(), bound)
    }

    /// Returns whether a request satisfies the scope of the policy: the constraints on the principal, the action and the
    /// resource. The clauses of the policy are not read.
    ///
    /// An entity that the store does not have is in itself only, also in a partial store. Does not allocate.
    ///
    /// # Complexity
    ///
    /// At most one lookup of each of the three entities, and of each listed action a lookup among the ancestors of the
    /// action.
    ///
    /// # Differences from cedar-policy-core
    ///
    /// The original evaluates [`Policy::condition`], which contains the scope.
    ///
    /// # Examples
    ///
    /// ```
    /// use cedar_store::ast::{
    ///     ActionConstraint, Annotations, Effect, EntityUID, PolicySet, PrincipalConstraint, ResourceConstraint, SlotEnv,
    ///     SlotId, Template,
    /// };
    /// use cedar_store::entities::Entities;
    ///
    /// let [alice, bob, view, photo] = ["User::\"alice\"", "User::\"bob\"", "Action::\"view\"", "Photo::\"p\""]
    ///     .map(|text| text.parse::<EntityUID>().expect("a uid"));
    /// let (principal, action, resource) =
    ///     (PrincipalConstraint::is_eq_slot(), ActionConstraint::is_eq(view.clone()), ResourceConstraint::any());
    /// let may_view = Template::new(
    ///     "may-view".into(), None, Annotations::new(), Effect::Permit, principal, action, resource, None,
    /// );
    /// let mut policies = PolicySet::new();
    /// policies.add_template(may_view)?;
    /// let bound = SlotEnv::from([(SlotId::principal(), alice.clone())]);
    /// let policy = policies.link("may-view".into(), "alice-may-view".into(), bound)?;
    ///
    /// let entities = Entities::new();
    /// assert!(policy.applies_to_scope(&alice, &view, &photo, &entities));
    /// assert!(!policy.applies_to_scope(&bob, &view, &photo, &entities));
    /// # Ok::<(), Box<dyn std::error::Error>>(())
    /// ```
    pub fn applies_to_scope<S: BuildHasher + Clone>(
        &self,
        principal: &EntityUID,
        action: &EntityUID,
        resource: &EntityUID,
        entities: &Entities<S>,
    ) -> bool {
        self.borrowed_action_constraint().is_satisfied_by(action, entities)
            && self
                .borrowed_principal_constraint()
                .is_satisfied_by(principal, entities)
            && self.borrowed_resource_constraint().is_satisfied_by(resource, entities)
    }
}
