//! Borrowed constraints and the decision by the scope, compared with the allocated constraints for all kinds of
//! constraints.
mod common;

use cedar_store::ast::{
    ActionConstraint, Annotations, Effect, Entity, EntityReference, EntityType, EntityUID, Policy, PolicySet,
    PrincipalConstraint, PrincipalOrResourceConstraint, ResourceConstraint, SlotEnv, SlotId, StaticPolicy, Template,
};
use cedar_store::entities::{Dereference, Entities, TCComputation};
use cedar_store::{BorrowedActionConstraint, BorrowedConstraint};
use common::{id, uid};
use std::sync::Arc;

const UIDS: [&str; 5] = [
    r#"U::"a""#,
    r#"U::"b""#,
    r#"G::"g""#,
    r#"Action::"view""#,
    r#"Action::"all""#,
];

fn ty(text: &str) -> Arc<EntityType> {
    Arc::new(text.parse().expect("a valid entity type"))
}

/// Returns a store in which `U::"a"` is in `G::"g"`, and `Action::"view"` in `Action::"all"`. `U::"b"` is absent.
fn store() -> Entities {
    let entity = |own, parent| {
        let mut entity = Entity::with_uid(uid(own));
        entity.add_parent(uid(parent));
        entity
    };
    let list = [entity(UIDS[0], UIDS[2]), entity(UIDS[3], UIDS[4])];
    Entities::from_entities(list, TCComputation::ComputeNow).expect("no cycle")
}

/// Returns all kinds of constraints on the principal, and whether each has a slot.
fn principals() -> Vec<(PrincipalConstraint, bool)> {
    let shared = |text| Arc::new(uid(text));
    let mut all = vec![
        (PrincipalConstraint::any(), false),
        (PrincipalConstraint::is_eq_slot(), true),
        (PrincipalConstraint::is_in_slot(), true),
    ];
    for text in &UIDS[..3] {
        all.push((PrincipalConstraint::is_eq(shared(text)), false));
        all.push((PrincipalConstraint::is_in(shared(text)), false));
    }
    for name in ["U", "G"] {
        all.push((PrincipalConstraint::is_entity_type(ty(name)), false));
        all.push((PrincipalConstraint::is_entity_type_in(ty(name), shared(UIDS[2])), false));
        all.push((PrincipalConstraint::is_entity_type_in_slot(ty(name)), true));
    }
    all
}

/// Returns all kinds of constraints on the action, and whether each has a slot.
fn actions() -> Vec<(ActionConstraint, bool)> {
    let (view, all) = (uid(UIDS[3]), uid(UIDS[4]));
    vec![
        (ActionConstraint::any(), false),
        (ActionConstraint::is_eq(view.clone()), false),
        (ActionConstraint::is_eq(all.clone()), false),
        (ActionConstraint::is_in([]), false),
        (ActionConstraint::is_in([all.clone()]), false),
        (ActionConstraint::is_in([view, all]), false),
        (ActionConstraint::is_in_slot(), true),
        (ActionConstraint::is_eq_slot(), true),
    ]
}

fn template(principal: PrincipalConstraint, action: ActionConstraint, resource: ResourceConstraint) -> Template {
    let annotations = Annotations::new();
    Template::new(
        id("t"),
        None,
        annotations,
        Effect::Permit,
        principal,
        action,
        resource,
        None,
    )
}

/// Returns the policies of a template: its links with these values for its slots, or the static policy.
fn policies(template: Template, values: &[SlotEnv]) -> Vec<Policy> {
    if template.slots().next().is_none() {
        return vec![StaticPolicy::try_from(template).expect("no slot").into()];
    }
    let mut set = PolicySet::new();
    set.add_template(template).expect("the id is free");
    for (number, values) in values.iter().enumerate() {
        set.link(id("t"), id(&number.to_string()), values.clone())
            .expect("the slots are bound");
    }
    set.into_policies().collect()
}

fn is_in(store: &Entities, uid: &EntityUID, other: &EntityUID) -> bool {
    uid == other || matches!(store.entity(uid), Dereference::Data(entity) if entity.is_descendant_of(other))
}

/// Returns whether an entity satisfies a constraint whose slots are filled.
fn satisfies(store: &Entities, uid: &EntityUID, constraint: &PrincipalOrResourceConstraint) -> bool {
    let uid_of = |reference: &EntityReference| match reference {
        EntityReference::EUID(uid) => Arc::clone(uid),
        EntityReference::Slot(_) => panic!("the slot is filled"),
    };
    match constraint {
        PrincipalOrResourceConstraint::Any => true,
        PrincipalOrResourceConstraint::Eq(reference) => *uid == *uid_of(reference),
        PrincipalOrResourceConstraint::In(reference) => is_in(store, uid, &uid_of(reference)),
        PrincipalOrResourceConstraint::Is(ty) => uid.entity_type() == &**ty,
        PrincipalOrResourceConstraint::IsIn(ty, reference) => {
            uid.entity_type() == &**ty && is_in(store, uid, &uid_of(reference))
        }
    }
}

/// Returns whether an action satisfies a constraint whose slot is filled.
fn allows(store: &Entities, action: &EntityUID, constraint: &ActionConstraint) -> bool {
    match constraint {
        ActionConstraint::Any => true,
        ActionConstraint::Eq(uid) => *action == **uid,
        ActionConstraint::In(uids) => uids.iter().any(|uid| is_in(store, action, uid)),
        ActionConstraint::InSlot(_) | ActionConstraint::EqSlot(_) => panic!("the slot is filled"),
    }
}

/// Returns the owned constraint with the content of a borrowed one.
fn owned(constraint: BorrowedConstraint) -> PrincipalOrResourceConstraint {
    let shared = |uid: &EntityUID| Arc::new(uid.clone());
    match constraint {
        BorrowedConstraint::Any => PrincipalOrResourceConstraint::any(),
        BorrowedConstraint::In(uid) => PrincipalOrResourceConstraint::is_in(shared(uid)),
        BorrowedConstraint::Eq(uid) => PrincipalOrResourceConstraint::is_eq(shared(uid)),
        BorrowedConstraint::Is(ty) => PrincipalOrResourceConstraint::is_entity_type(Arc::new(ty.clone())),
        BorrowedConstraint::IsIn(ty, uid) => {
            PrincipalOrResourceConstraint::is_entity_type_in(Arc::new(ty.clone()), shared(uid))
        }
        BorrowedConstraint::Unbound => panic!("the slot is filled"),
    }
}

/// Returns the owned constraint with the content of a borrowed one.
fn owned_action(constraint: BorrowedActionConstraint) -> ActionConstraint {
    match constraint {
        BorrowedActionConstraint::Any => ActionConstraint::any(),
        BorrowedActionConstraint::In(uids) => ActionConstraint::is_in(uids.iter().map(|uid| (**uid).clone())),
        BorrowedActionConstraint::InBound(uid) => ActionConstraint::is_in([uid.clone()]),
        BorrowedActionConstraint::Eq(uid) => ActionConstraint::is_eq(uid.clone()),
        BorrowedActionConstraint::Unbound => panic!("the slot is filled"),
    }
}

/// Compares all results for a policy with the allocated constraints. Returns the number of requests to which it applies.
fn compare(store: &Entities, policy: &Policy) -> usize {
    let (principal, resource) = (policy.principal_constraint(), policy.resource_constraint());
    let action = policy.action_constraint();
    assert_eq!(&owned(policy.borrowed_principal_constraint()), principal.as_inner());
    assert_eq!(&owned(policy.borrowed_resource_constraint()), resource.as_inner());
    assert_eq!(owned_action(policy.borrowed_action_constraint()), action);
    let mut applicable = 0;
    for one in UIDS.map(uid) {
        for other in UIDS.map(uid) {
            for act in [uid(UIDS[3]), uid(UIDS[4])] {
                let expected = allows(store, &act, &action)
                    && satisfies(store, &one, principal.as_inner())
                    && satisfies(store, &other, resource.as_inner());
                let result = policy.applies_to_scope(&one, &act, &other, store);
                assert_eq!(result, expected, "{policy:?} {one} {act} {other}");
                applicable += usize::from(expected);
            }
        }
    }
    applicable
}

#[test]
fn scopes_agree_with_the_allocated_constraints() {
    let store = store();
    let (mut policies_read, mut applicable) = (0, 0);
    for (principal, by_principal) in principals() {
        for (resource, by_resource) in principals() {
            for (action, by_action) in actions() {
                let resource = ResourceConstraint::new(resource.as_inner().clone());
                let values = [(0, 2, 3), (1, 0, 4), (2, 2, 4)].map(|(p, r, a)| {
                    let bound = [
                        (by_principal, SlotId::principal(), uid(UIDS[p])),
                        (by_resource, SlotId::resource(), uid(UIDS[r])),
                        (by_action, SlotId::action(), uid(UIDS[a])),
                    ];
                    let used = bound.into_iter().filter(|(is_used, ..)| *is_used);
                    used.map(|(_, slot, uid)| (slot, uid)).collect::<SlotEnv>()
                });
                for policy in policies(template(principal.clone(), action, resource), &values) {
                    applicable += compare(&store, &policy);
                    policies_read += 1;
                }
            }
        }
    }
    assert!(
        policies_read > 3000 && applicable > 5_000,
        "{policies_read} {applicable}"
    );
}

#[test]
fn an_absent_entity_of_a_partial_store_is_in_itself_only() {
    let store = store().partial();
    let absent = uid(UIDS[1]);
    assert!(BorrowedConstraint::In(&absent).is_satisfied_by(&absent, &store));
    assert!(!BorrowedConstraint::In(&uid(UIDS[2])).is_satisfied_by(&absent, &store));
    assert!(!BorrowedConstraint::Unbound.is_satisfied_by(&absent, &store));
    assert!(BorrowedActionConstraint::InBound(&absent).is_satisfied_by(&absent, &store));
    assert!(!BorrowedActionConstraint::Unbound.is_satisfied_by(&absent, &store));
}
