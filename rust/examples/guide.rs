//! Twelve tasks of an authorizer, an administration service, a policy parser or a validator. `docs/GUIDE.md` quotes these
//! functions.
use cedar_store::ast::{
    ActionConstraint, Annotations, Effect, Entity, EntityUID, LinkingError, PartialValue, PolicyID, PolicySet,
    PolicySetError, PolicySetGetLinksError, PolicySetPolicyRemovalError, PolicySetTemplateRemovalError,
    PolicySetUnlinkError, PolicySetValidationError, PrincipalConstraint, ResourceConstraint, SlotEnv, SlotId,
    StaticPolicy, Template, UnexpectedSlotError, Value,
};
use cedar_store::entities::{Dereference, Entities, EntitiesError, TCComputation::ComputeNow};
use cedar_store::slice;
use cedar_store::transitive_closure::TcError;
use std::error::Error;
use std::sync::Arc;

fn uid(ty: &str, eid: &str) -> EntityUID {
    EntityUID::with_eid_and_type(ty, eid).expect("a valid entity type")
}

fn id(text: &str) -> PolicyID {
    PolicyID::from_string(text)
}

fn entity(uid: EntityUID, parents: &[EntityUID]) -> Entity {
    let mut entity = Entity::with_uid(uid);
    for parent in parents {
        entity.add_parent(parent.clone());
    }
    entity
}

fn build() -> Result<Entities, EntitiesError> {
    let mut alice = Entity::new_with_attr_partial_value(
        uid("User", "alice"),
        [("age".to_string(), PartialValue::from(Value::from(41)))],
        Default::default(),
        Default::default(),
        [],
    );
    alice.add_parent(uid("Group", "admins"));
    let admins = entity(uid("Group", "admins"), &[uid("Group", "staff")]);
    let files = ["q3", "q4"].map(|file| entity(uid("File", file), &[uid("Folder", "reports")]));
    Entities::from_entities([alice, admins].into_iter().chain(files), ComputeNow)
}

fn query(store: &Entities) {
    match store.entity(&uid("User", "alice")) {
        Dereference::Data(alice) => {
            println!(
                "alice is in the staff: {}",
                alice.is_descendant_of(&uid("Group", "staff"))
            );
            println!("ancestors of alice: {}", alice.ancestors_in_order().count());
        }
        Dereference::NoSuchEntity | Dereference::Residual(_) => println!("alice is not in the store"),
    }
    println!("bob is in the store: {}", store.stored(&uid("User", "bob")).is_some());
}

fn edit(store: Entities) -> Result<Entities, EntitiesError> {
    let bob = Arc::new(entity(uid("User", "bob"), &[uid("Group", "admins")]));
    let store = store.add_entities([bob], ComputeNow)?;
    let admins = Arc::new(entity(uid("Group", "admins"), &[uid("Group", "board")]));
    let store = store.upsert_entities([admins], ComputeNow)?;
    store.remove_entities([uid("File", "q3")], ComputeNow)
}

fn add_or_keep(store: Entities, entity: Entity) -> Entities {
    match store.clone().add_entities([Arc::new(entity)], ComputeNow) {
        Ok(edited) => return edited,
        Err(EntitiesError::Duplicate(uid)) => println!("error: a different entity with the uid {uid} exists"),
        Err(EntitiesError::TransitiveClosureError(TcError::HasCycle(cycle))) => {
            println!("error: cycle through {}", cycle.vertex_with_loop());
        }
        Err(other) => println!("error: {other}"),
    }
    store
}

struct Request {
    principal: EntityUID,
    action: EntityUID,
    resource: EntityUID,
}

fn slice_for(store: &Entities, request: &Request) -> Entities {
    let Request {
        principal,
        action,
        resource,
    } = request;
    slice(store, &[principal.clone(), action.clone(), resource.clone()])
}

fn readers() -> Template {
    Template::new(
        id("readers"),
        None,
        Annotations::new(),
        Effect::Permit,
        PrincipalConstraint::is_in_slot(),
        ActionConstraint::is_eq(uid("Action", "read")),
        ResourceConstraint::is_in_slot(),
        None,
    )
}

fn add_and_link(set: &mut PolicySet) -> Result<(), Box<dyn Error>> {
    set.add_template(readers())?;
    let bound = SlotEnv::from([
        (SlotId::principal(), uid("Group", "staff")),
        (SlotId::resource(), uid("Folder", "reports")),
    ]);
    let link = set.link(id("readers"), id("staff read reports"), bound)?;
    println!("linked: {link}");
    Ok(())
}

fn list_applicable(store: &Entities, set: &PolicySet, request: &Request) {
    let Request {
        principal,
        action,
        resource,
    } = request;
    for policy in set {
        if policy.applies_to_scope(principal, action, resource, store) {
            println!("applies: {} ({})", policy.id(), policy.effect());
        }
    }
}

fn unconstrained(name: &str, effect: Effect) -> Result<StaticPolicy, Box<dyn Error>> {
    Ok(StaticPolicy::new(
        id(name),
        None,
        Annotations::new(),
        effect,
        PrincipalConstraint::any(),
        ActionConstraint::any(),
        ResourceConstraint::any(),
        None,
    )?)
}

fn merge(set: &mut PolicySet, other: &PolicySet) -> Result<(), PolicySetError> {
    let renaming = set.merge_policyset(other, true)?;
    for (old, new) in &renaming {
        println!("{old} of the other set is {new} here");
    }
    println!("policy1 was renamed: {}", renaming.get(&id("policy1")).is_some());
    Ok(())
}

fn print(store: &Entities, set: &PolicySet) {
    print!("{store}");
    if let Some(policy) = set.get(&id("policy0")) {
        println!("{policy}");
    }
    println!("{set}");
}

fn add(set: &mut PolicySet, policy: StaticPolicy) -> String {
    match set.add_static(policy) {
        Ok(()) => "added".to_string(),
        Err(PolicySetError::Occupied { id }) => format!("the id {id} is in use"),
    }
}

fn link(set: &mut PolicySet, template: &str, name: &str, bound: SlotEnv) -> String {
    match set.link(id(template), id(name), bound) {
        Ok(link) => format!("linked {}", link.id()),
        Err(LinkingError::NoSuchTemplate { id }) => format!("{id} is not a template"),
        Err(LinkingError::ArityError {
            unbound_values,
            extra_values,
        }) => format!("slots without a value: {unbound_values:?}, values without a slot: {extra_values:?}"),
        Err(LinkingError::NotAnAction { uid }) => format!("{uid} is not an action"),
        Err(LinkingError::PolicyIdConflict { id }) => format!("the id {id} is in use"),
    }
}

fn unlink(set: &mut PolicySet, name: &str) -> String {
    match set.unlink(&id(name)) {
        Ok(link) => format!("unlinked {}", link.id()),
        Err(PolicySetUnlinkError::UnlinkingError(id)) => format!("the id {id} does not exist"),
        Err(PolicySetUnlinkError::NotLinkError(id)) => format!("{id} is not a link"),
    }
}

fn remove_static(set: &mut PolicySet, name: &str) -> String {
    match set.remove_static(&id(name)) {
        Ok(policy) => format!("removed {}", policy.id()),
        Err(PolicySetPolicyRemovalError::RemovePolicyNoLinkError(id)) => format!("{id} is not a policy"),
        Err(PolicySetPolicyRemovalError::RemovePolicyNoTemplateError(id)) => format!("{id} is a link"),
    }
}

fn remove_template(set: &mut PolicySet, name: &str) -> String {
    match set.remove_template(&id(name)) {
        Ok(template) => format!("removed {}", template.id()),
        Err(PolicySetTemplateRemovalError::RemovePolicyNoTemplateError(id)) => format!("the id {id} does not exist"),
        Err(PolicySetTemplateRemovalError::RemoveTemplateWithLinksError(id)) => format!("{id} has links"),
        Err(PolicySetTemplateRemovalError::NotTemplateError(id)) => format!("{id} is not a template"),
    }
}

fn links_of(set: &PolicySet, name: &str) -> String {
    match set.get_linked_policies(&id(name)) {
        Ok(links) => format!("links of {name}: {}", links.count()),
        Err(PolicySetGetLinksError::MissingTemplate(id)) => format!("{id} is not a template"),
    }
}

fn as_static(template: Template) -> String {
    match StaticPolicy::try_from(template) {
        Ok(policy) => format!("static: {}", policy.id()),
        Err(UnexpectedSlotError::FoundSlot(slot)) => format!("a static policy cannot have the slot {}", slot.id),
    }
}

fn validate(set: PolicySet) -> String {
    match set.try_validate() {
        Ok(set) => format!("valid: {} policies", set.policies().count()),
        Err(PolicySetValidationError::InvalidTemplate { id, error }) => format!("{id}: {error}"),
        Err(PolicySetValidationError::LinkToSlotlessTemplate { link_id, template_id }) => {
            format!("{link_id} is a link of {template_id}, which has no slots")
        }
    }
}

fn with_action(name: &str, action: ActionConstraint) -> Template {
    Template::new(
        id(name),
        None,
        Annotations::new(),
        Effect::Permit,
        PrincipalConstraint::any(),
        action,
        ResourceConstraint::any(),
        None,
    )
}

fn failed_additions(set: &mut PolicySet) -> Result<(), Box<dyn Error>> {
    println!("{}", add(set, unconstrained("readers", Effect::Forbid)?));
    println!("{}", link(set, "policy0", "new", SlotEnv::new()));
    println!("{}", link(set, "readers", "new", SlotEnv::new()));
    set.add_template(with_action("doers", ActionConstraint::is_eq_slot()))?;
    let to = |action| SlotEnv::from([(SlotId::action(), action)]);
    println!("{}", link(set, "doers", "new", to(uid("User", "alice"))));
    println!("{}", link(set, "doers", "policy0", to(uid("Action", "read"))));
    Ok(())
}

fn failed_removals(set: &mut PolicySet) {
    for name in ["nobody", "policy0"] {
        println!("{}", unlink(set, name));
    }
    for name in ["readers", "staff read reports"] {
        println!("{}", remove_static(set, name));
    }
    for name in ["nobody", "readers", "policy0"] {
        println!("{}", remove_template(set, name));
    }
}

fn failed_checks(set: &PolicySet) -> Result<(), Box<dyn Error>> {
    println!("{}; {}", links_of(set, "readers"), links_of(set, "nobody"));
    println!("{}", as_static(readers()));
    println!("{}", validate(set.clone()));
    let mut wrong = PolicySet::new();
    wrong.add_template(with_action("wrong", ActionConstraint::is_eq(uid("User", "alice"))))?;
    println!("{}", validate(wrong));
    let mut slotless = PolicySet::new();
    slotless.add_template(with_action("slotless", ActionConstraint::any()))?;
    slotless.link(id("slotless"), id("its link"), SlotEnv::new())?;
    println!("{}", validate(slotless));
    Ok(())
}

fn print_members(store: &Entities) {
    let staff = uid("Group", "staff");
    for member in store.descendants_of_type(&staff, uid("User", "").entity_type()) {
        let path = store.path(member, &staff).unwrap_or_default();
        let texts: Vec<String> = path.iter().map(ToString::to_string).collect();
        println!("{}", texts.join(" in "));
    }
}

fn print_naming(set: &PolicySet, uid: &EntityUID) {
    for policy in set.naming(uid) {
        println!("names {uid}: {}", policy.id());
    }
}

fn main() -> Result<(), Box<dyn Error>> {
    let store = build()?;
    query(&store);
    print_members(&store);
    let edited = edit(store.clone())?;
    println!("edited: {} entities", edited.len());
    for group in ["board", "staff"] {
        let alice = edited.stored(&uid("User", "alice"));
        let is_member = alice.is_some_and(|alice| alice.is_descendant_of(&uid("Group", group)));
        println!("alice is in the {group}: {is_member}");
    }
    let with_bob = add_or_keep(store.clone(), entity(uid("User", "bob"), &[]));
    println!("with bob: {} entities", with_bob.len());
    let unchanged = add_or_keep(with_bob, entity(uid("Group", "admins"), &[]));
    let unchanged = add_or_keep(unchanged, entity(uid("Group", "staff"), &[uid("Group", "staff")]));
    println!("after both errors: {} entities", unchanged.len());
    let request = Request {
        principal: uid("User", "alice"),
        action: uid("Action", "read"),
        resource: uid("File", "q3"),
    };
    let sliced = slice_for(&store, &request);
    println!("the slice: {} of {} entities", sliced.len(), store.len());

    let mut set = PolicySet::new();
    add_and_link(&mut set)?;
    set.add_static(unconstrained("policy0", Effect::Permit)?)?;
    list_applicable(&sliced, &set, &request);
    print_naming(&set, &uid("Group", "staff"));
    let mut other = PolicySet::new();
    other.add_static(unconstrained("policy0", Effect::Forbid)?)?;
    other.add_static(unconstrained("policy1", Effect::Permit)?)?;
    merge(&mut set, &other)?;
    print(&store, &set);
    failed_additions(&mut set)?;
    failed_removals(&mut set);
    failed_checks(&set)
}
