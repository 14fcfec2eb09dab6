//! The decision whether a policy applies to a request by its scope.
use crate::action::ActionConstraint;
use crate::policy::Policy;
use crate::scope::PrincipalOrResourceConstraint as Constraint;
use crate::stored::Entities;
use crate::uid::EntityUID;

// Returns whether an entity is in another one: it is the same, or a descendant in the store.
fn is_in(entities: &Entities, uid: &EntityUID, other: &EntityUID) -> bool {
    uid == other
        || entities
            .stored(uid)
            .is_some_and(|entity| entity.is_descendant_of(other))
}

// Returns whether an entity satisfies a constraint without a slot.
fn satisfies(entities: &Entities, uid: &EntityUID, constraint: &Constraint) -> bool {
    let is_in_its_entity = || {
        let other = constraint.get_euid();
        other.is_some_and(|other| is_in(entities, uid, other))
    };
    match constraint {
        Constraint::Any => true,
        Constraint::In(_) => is_in_its_entity(),
        Constraint::Eq(_) => constraint.get_euid().is_some_and(|other| uid == &**other),
        Constraint::Is(ty) => uid.entity_type() == &**ty,
        Constraint::IsIn(ty, _) => uid.entity_type() == &**ty && is_in_its_entity(),
    }
}

// Returns whether an action satisfies a constraint without a slot.
fn is_action_of(entities: &Entities, action: &EntityUID, constraint: &ActionConstraint) -> bool {
    match constraint {
        ActionConstraint::Any => true,
        ActionConstraint::In(uids) => uids.iter().any(|uid| is_in(entities, action, uid)),
        ActionConstraint::Eq(uid) => action == &**uid,
        ActionConstraint::InSlot(_) | ActionConstraint::EqSlot(_) => false,
    }
}

impl Policy {
    /// Returns whether a request satisfies the scope of the policy: the constraints on the principal, the action and
    /// the resource. The clauses of the policy are not read. The decision itself is not proved, but the answers of the
    /// store on which it depends are.
    ///
    /// An entity that the store does not have is in itself only, also in a partial store.
    ///
    /// ```
    /// use cedar_store_proved::ast::{Effect, EntityUID, Expr, Policy, PolicyID};
    /// use cedar_store_proved::entities::Entities;
    /// let uid = |text| EntityUID::from_normalized_str(text).unwrap();
    /// let (alice, view, photo) = (uid("User::\"alice\""), uid("Action::\"view\""), uid("Photo::\"p\""));
    /// let id = PolicyID::from_string("allow-all");
    /// let policy = Policy::from_when_clause(Effect::Permit, Expr::val(true), id, None);
    /// assert!(policy.applies_to_scope(&alice, &view, &photo, &Entities::new()));
    /// ```
    pub fn applies_to_scope(
        &self,
        principal: &EntityUID,
        action: &EntityUID,
        resource: &EntityUID,
        entities: &Entities,
    ) -> bool {
        is_action_of(entities, action, &self.action_constraint())
            && satisfies(entities, principal, self.principal_constraint().as_inner())
            && satisfies(entities, resource, self.resource_constraint().as_inner())
    }
}
