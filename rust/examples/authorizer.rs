//! A small authorizer: entities with attributes, templates and links, and requests that are decided by the scopes of
//! the policies. Evaluating conditions is the task of another layer, so the policies here have none.
use cedar_store::ast::{
    ActionConstraint, Annotations, Effect, Entity, EntityUID, PartialValue, Policy, PolicyID, PolicySet,
    PrincipalConstraint, ResourceConstraint, SlotId, StaticPolicy, Template, Value,
};
use cedar_store::entities::{Dereference, Entities, TCComputation};
use std::collections::HashMap;
use std::error::Error;
use std::sync::Arc;

/// A request: may the principal do the action with the resource?
struct Request {
    principal: EntityUID,
    action: EntityUID,
    resource: EntityUID,
}

/// Decides a request. It is allowed if a policy permits it and no policy forbids it. Also returns the ids of the
/// applicable policies.
fn decide(store: &Entities, policies: &PolicySet, request: &Request) -> (bool, Vec<String>) {
    let applicable: Vec<&Policy> = policies
        .policies()
        .filter(|policy| policy.applies_to_scope(&request.principal, &request.action, &request.resource, store))
        .collect();
    let has_effect = |effect| applicable.iter().any(|policy| policy.effect() == effect);
    let ids = applicable.iter().map(|policy| policy.id().to_string()).collect();
    (has_effect(Effect::Permit) && !has_effect(Effect::Forbid), ids)
}

fn uid(ty: &str, eid: &str) -> EntityUID {
    EntityUID::with_eid_and_type(ty, eid).expect("a valid entity type")
}

fn person(eid: &str, age: i64, groups: &[&str]) -> Entity {
    Entity::new_with_attr_partial_value(
        uid("User", eid),
        [("age".to_string(), PartialValue::from(Value::from(age)))],
        Default::default(),
        groups.iter().map(|group| uid("Group", group)).collect(),
        [],
    )
}

fn entity_with_parent(uid: EntityUID, parent: EntityUID) -> Entity {
    let mut entity = Entity::with_uid(uid);
    entity.add_parent(parent);
    entity
}

/// Creates the policies. Everybody who is linked to a folder may read what is in it. Nobody may do anything with locked
/// resources.
fn policies() -> Result<PolicySet, Box<dyn Error>> {
    let mut set = PolicySet::new();
    set.add_template(Template::new(
        PolicyID::from_string("readers"),
        None,
        Annotations::new(),
        Effect::Permit,
        PrincipalConstraint::is_in_slot(),
        ActionConstraint::is_eq(uid("Action", "read")),
        ResourceConstraint::is_in_slot(),
        None,
    ))?;
    let bindings = HashMap::from([
        (SlotId::principal(), uid("Group", "staff")),
        (SlotId::resource(), uid("Folder", "reports")),
    ]);
    set.link(
        PolicyID::from_string("readers"),
        PolicyID::from_string("staff read reports"),
        bindings,
    )?;
    set.add_static(StaticPolicy::new(
        PolicyID::from_string("locked"),
        None,
        Annotations::new(),
        Effect::Forbid,
        PrincipalConstraint::any(),
        ActionConstraint::any(),
        ResourceConstraint::is_in(Arc::new(uid("Folder", "locked"))),
        None,
    )?)?;
    Ok(set)
}

fn main() -> Result<(), Box<dyn Error>> {
    let store = Entities::from_entities(
        [
            person("alice", 41, &["admins"]),
            person("bob", 19, &[]),
            entity_with_parent(uid("Group", "admins"), uid("Group", "staff")),
            entity_with_parent(uid("File", "q3"), uid("Folder", "reports")),
            entity_with_parent(uid("File", "secret"), uid("Folder", "locked")),
            entity_with_parent(uid("Folder", "locked"), uid("Folder", "reports")),
        ],
        TCComputation::ComputeNow,
    )?;
    let policies = policies()?;
    for (user, file) in [("alice", "q3"), ("bob", "q3"), ("alice", "secret")] {
        let request = Request {
            principal: uid("User", user),
            action: uid("Action", "read"),
            resource: uid("File", file),
        };
        let (allowed, policy_ids) = decide(&store, &policies, &request);
        println!(
            "{user} reads {file}: {} by {policy_ids:?}",
            if allowed { "allowed" } else { "denied" }
        );
    }
    if let Dereference::Data(alice) = store.entity(&uid("User", "alice")) {
        println!("{alice}");
    }
    Ok(())
}
