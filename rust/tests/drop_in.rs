//! Lines of code for cedar-policy-core that compile over this package, with the results that they have there.
use cedar_store::ast::{
    ActionConstraint, Annotation, Annotations, AnyId, Effect, Entity, EntityUID, Expr, ExprValidationError, Literal,
    Name, NonEmpty, Policy, PolicyID, PolicySet, PolicySetValidationError, PrincipalConstraint, ResourceConstraint,
    Slot, SlotEnv, SlotId, StaticPolicy, Template, TemplateValidationError,
};
use cedar_store::entities::{Entities, EntitiesError, TCComputation};
use cedar_store::parser::err::parse_errors::{InvalidActionType, SlotsInConditionClause};
use cedar_store::transitive_closure::{TCNode, compute_tc, enforce_tc_and_dag, repair_tc};
use std::collections::{HashMap, HashSet};
use std::error::Error;
use std::sync::Arc;

fn uid(eid: &str) -> EntityUID {
    EntityUID::with_eid_and_type("U", eid).expect("a valid entity type")
}

fn id(text: &str) -> PolicyID {
    PolicyID::from_string(text)
}

fn constant(truth: bool, name: &str) -> Policy {
    Policy::from_when_clause(Effect::Permit, Expr::val(truth), id(name), None)
}

fn template(name: &str, principal: PrincipalConstraint, clause: Option<Expr>) -> Template {
    let (annotations, any) = (Annotations::new(), ResourceConstraint::any());
    let action = ActionConstraint::any();
    Template::new(
        id(name),
        None,
        annotations,
        Effect::Permit,
        principal,
        action,
        any,
        clause,
    )
}

/// Returns a set with a static policy, two links of a template, and a second template.
fn set() -> PolicySet {
    let mut set = PolicySet::new();
    let by_principal = template("t", PrincipalConstraint::is_eq_slot(), None);
    set.add_template(by_principal).expect("the id is free");
    set.add(constant(true, "s")).expect("the id is free");
    for name in ["l0", "l1"] {
        let bound = SlotEnv::from([(SlotId::principal(), uid(name))]);
        set.link(id("t"), id(name), bound).expect("the slot is bound");
    }
    let other = template("u", PrincipalConstraint::is_in_slot(), None);
    set.add_template(other).expect("the id is free");
    set
}

#[test]
fn default_stores_and_sets_have_the_default_hasher() {
    let store = Entities::default();
    assert_eq!(store.len(), 0);
    let policies = PolicySet::default();
    assert!(policies.is_empty());
}

#[test]
fn nodes_are_trait_objects() {
    let mut entity = Entity::with_uid(uid("a"));
    let node: &mut dyn TCNode<EntityUID> = &mut entity;
    node.add_edge_to(uid("b"));
    assert!(node.has_edge_to(&uid("b")) && node.out_edges().count() == 1);
    let boxed: Box<dyn TCNode<EntityUID>> = Box::new(entity);
    assert_eq!(boxed.get_key(), uid("a"));
}

#[test]
fn closures_have_two_type_parameters() {
    let (mut a, mut b) = (Entity::with_uid(uid("a")), Entity::with_uid(uid("b")));
    a.add_parent(uid("b"));
    b.add_parent(uid("c"));
    let mut nodes = HashMap::from([(uid("a"), a), (uid("b"), b)]);
    assert!(enforce_tc_and_dag::<EntityUID, Entity>(&nodes).is_err());
    compute_tc::<EntityUID, Entity>(&mut nodes, true).expect("no cycle");
    assert!(enforce_tc_and_dag(&nodes).is_ok());
    // the set has the default hasher, although nothing else names it
    let fixed: HashSet<_> = [uid("a")].into_iter().collect();
    repair_tc(&fixed, &mut nodes, true).expect("no cycle");
    repair_tc::<EntityUID, Entity>(&HashSet::new(), &mut nodes, false).expect("nothing to repair");
}

#[test]
fn conversions() {
    let shared = Arc::new(uid("a"));
    assert_eq!(Literal::from(Arc::clone(&shared)), Literal::EntityUID(shared));
    let name = Name::from_normalized_str("foo").expect("a valid name");
    let invalid = ExprValidationError::UnknownFunction { name };
    let error: TemplateValidationError = invalid.clone().into();
    assert_eq!(error, TemplateValidationError::InvalidExpression(invalid));

    let euids = NonEmpty {
        head: Arc::new(uid("a")),
        tail: vec![],
    };
    let invalid = InvalidActionType { euids: euids.clone() };
    assert_eq!(
        TemplateValidationError::from(invalid.clone()).to_string(),
        invalid.to_string()
    );
    assert_eq!(
        TemplateValidationError::from(invalid),
        TemplateValidationError::InvalidActionType(euids)
    );

    let slot = Slot {
        id: SlotId::principal(),
        loc: None,
    };
    let invalid = SlotsInConditionClause { slot: slot.clone() };
    assert_eq!(invalid.to_string(), "found slot `?principal` in a condition clause");
    assert_eq!(
        TemplateValidationError::from(invalid),
        TemplateValidationError::SlotsInConditionClause(slot)
    );
}

#[test]
fn a_validation_error_has_its_cause_as_source() {
    let mut set = PolicySet::new();
    let clause = Expr::slot(SlotId::principal());
    let slotted = template("t", PrincipalConstraint::is_eq_slot(), Some(clause));
    set.add_template(slotted).expect("the id is free");
    let error = set.try_validate().expect_err("a slot in a clause");
    let source = error.source().expect("an error of the template");
    assert!(matches!(
        source.downcast_ref(),
        Some(TemplateValidationError::SlotsInConditionClause(_))
    ));
    let slotless = PolicySetValidationError::LinkToSlotlessTemplate {
        link_id: id("l"),
        template_id: id("t"),
    };
    assert!(slotless.source().is_none());
}

#[test]
fn a_cycle_is_the_source_of_the_error_of_a_store() {
    let mut entity = Entity::with_uid(uid("a"));
    entity.add_parent(uid("a"));
    let error = Entities::from_entities([entity], TCComputation::ComputeNow).expect_err("a cycle");
    let EntitiesError::TransitiveClosureError(cycle) = &error else {
        panic!("{error}");
    };
    assert_eq!(error.source().expect("the cycle").to_string(), cycle.to_string());
}

#[test]
fn ids_and_sets_from_arguments_that_are_converted() {
    let policy_id = PolicyID::from_smolstr("a".into());
    assert_eq!(policy_id.as_ref(), "a");
    let set = PolicySet::try_from_iter::<Vec<Policy>>(vec![constant(true, "a")]).expect("one id");
    assert!(set.get(&policy_id).is_some());
}

#[test]
fn a_valid_expression_is_returned() {
    let call = |name| Expr::call(Name::from_normalized_str(name).expect("a valid name"), vec![]);
    let valid: Expr = call("decimal").try_validate().expect("a known function");
    assert_eq!(valid, call("decimal"));
    assert_eq!(
        call("foo").try_validate().unwrap_err().to_string(),
        "`foo` is not a known function"
    );
}

/// A map and its lists, as `from_raw_components` takes them.
type Lists = Vec<(PolicyID, Vec<PolicyID>)>;

/// Returns the lists of the policies that use each body.
fn lists_of(set: &PolicySet) -> Lists {
    let ids = |body: &Template| {
        set.get_linked_policies(body.id())
            .expect("it is bound")
            .cloned()
            .collect()
    };
    set.all_templates().map(|body| (body.id().clone(), ids(body))).collect()
}

#[test]
fn a_set_from_its_maps_is_the_set() {
    let original = set();
    let arc = |id: &PolicyID| original.get_template_arc(id).expect("a body");
    let templates = original.all_templates().map(|body| (body.id().clone(), arc(body.id())));
    let links = original.policies().map(|policy| (policy.id().clone(), policy.clone()));
    let mut copy = PolicySet::from_raw_components(templates, links, lists_of(&original));
    assert!(copy == original && copy.to_string() == original.to_string());
    assert_eq!(lists_of(&copy), lists_of(&original));
    // the copy is edited as the original is
    assert!(copy.remove_template(&id("t")).is_err(), "it has links");
    for name in ["l0", "l1"] {
        copy.unlink(&id(name)).expect("a link");
    }
    assert_eq!(copy.remove_template(&id("t")).expect("no link").id(), &id("t"));
    assert_eq!(copy.remove_static(&id("s")).expect("a static policy").id(), &id("s"));
    assert_eq!(copy.templates().count(), 1);
}

#[test]
#[cfg(debug_assertions)]
#[should_panic(expected = "the body of each policy must be among the templates")]
fn a_set_from_maps_without_a_body() {
    let no_lists: Lists = vec![];
    PolicySet::from_raw_components([], [(id("s"), constant(true, "s"))], no_lists);
}

#[test]
fn iterators_know_their_sizes() {
    let set = set();
    assert_eq!(set.policies().len(), 3);
    assert_eq!(set.policies().size_hint(), (3, Some(3)));
    assert_eq!(set.all_templates().len(), 3);
    assert_eq!(set.templates().size_hint(), (0, Some(3)));
    assert_eq!(set.static_policies().size_hint(), (0, Some(3)));
    assert_eq!(set.get_linked_policies(&id("t")).expect("a template").len(), 2);
    assert_eq!(set.get_template(&id("t")).expect("a template").slots().len(), 1);
    let mut owned = set.into_policies();
    owned.next();
    assert_eq!((owned.len(), owned.clone().count()), (2, 2));

    let mut entity = Entity::with_uid(uid("a"));
    entity.add_parent(uid("b"));
    entity.add_indirect_ancestor(uid("c"));
    assert_eq!((entity.ancestors().len(), entity.parents().len()), (2, 1));
    assert_eq!((entity.keys().len(), entity.attrs().len()), (0, 0));
    let store = Entities::from_entities([entity], TCComputation::AssumeAlreadyComputed).expect("one entity");
    assert_eq!((store.iter().len(), store.into_iter().len()), (1, 1));

    let actions = ActionConstraint::is_in([uid("a"), uid("b")]);
    assert_eq!(
        (actions.iter_euids().len(), actions.iter_entity_type_names().len()),
        (2, 2)
    );
    let user = uid("a").entity_type().clone();
    let principal = PrincipalConstraint::is_entity_type_in(Arc::new(user), Arc::new(uid("a")));
    assert_eq!(principal.as_inner().iter_entity_type_names().len(), 2);
    let annotations = Annotations::from_iter([(AnyId::from_normalized_str("a").unwrap(), Annotation::default())]);
    assert_eq!((annotations.iter().len(), annotations.into_iter().len()), (1, 1));
}

#[test]
fn collecting_policies_allocates_once() {
    let set = PolicySet::try_from_iter((0..1000).map(|n| constant(true, &n.to_string()))).expect("different ids");
    let collected: Vec<&Policy> = set.policies().collect();
    assert_eq!(collected.capacity(), 1000);
}

#[test]
fn renamed_ids_are_a_map() {
    let mut one = PolicySet::try_from_iter(["a", "b"].map(|name| constant(true, name))).expect("two ids");
    let other = PolicySet::try_from_iter(["b", "a"].map(|name| constant(false, name))).expect("two ids");
    let renaming = one.merge_policyset(&other, true).expect("both ids are renamed");
    let (a, b) = (id("a"), id("b"));
    assert!(renaming.contains_key(&a) && !renaming.contains_key(&id("policy0")));
    assert_eq!((&renaming[&b], &renaming[&a]), (&id("policy0"), &id("policy1")));
    assert!(renaming.keys().eq([&b, &a]) && renaming.values().eq([&id("policy0"), &id("policy1")]));
    assert!(renaming.iter().rev().eq([(&a, &id("policy1")), (&b, &id("policy0"))]));
    assert!(renaming.keys().rev().eq([&a, &b]));
    assert_eq!((renaming.iter().len(), renaming.values().len()), (2, 2));
}

#[test]
fn debug_texts_are_those_of_the_original() {
    assert_eq!(format!("{:?}", id("p\"")), r#"PolicyID("p\"")"#);
    let key = AnyId::from_normalized_str("key").expect("an identifier");
    let annotations = Annotations::from_iter([(key, Annotation::default())]);
    let text = format!("{annotations:?}");
    assert!(text.starts_with("Annotations({AnyId") && text.ends_with("})"), "{text}");
    assert_eq!(format!("{:?}", Annotations::new()), "Annotations({})");

    let ring = || [("a", "b"), ("b", "a")].map(|(own, parent)| child(own, parent));
    let mut nodes: HashMap<_, _> = ring()
        .into_iter()
        .map(|entity| (entity.uid().clone(), entity))
        .collect();
    let cycle = format!("{:?}", compute_tc(&mut nodes, true).expect_err("a cycle"));
    assert!(
        cycle.starts_with("HasCycle(HasCycle { vertex_with_loop: EntityUID("),
        "{cycle}"
    );

    assert_eq!(
        format!("{:?}", Entities::new()),
        "Entities { entities: {}, mode: Concrete }"
    );
    assert_eq!(
        format!("{:?}", Entities::new().partial()),
        "Entities { entities: {}, mode: Partial }"
    );
    let store = Entities::from_entities([child("a", "b")], TCComputation::ComputeNow).expect("no cycle");
    let text = format!("{store:?}");
    let entity = format!("{:?}", store.iter().next().expect("one entity"));
    assert_eq!(
        text,
        format!("Entities {{ entities: {{{:?}: {entity}}}, mode: Concrete }}", uid("a"))
    );
    assert!(entity.ends_with(&format!(
        "indirect_ancestors: {{}}, parents: {{{:?}}}, tags: {{}} }}",
        uid("b")
    )));
}

fn child(own: &str, parent: &str) -> Entity {
    let mut entity = Entity::with_uid(uid(own));
    entity.add_parent(uid(parent));
    entity
}

#[test]
fn a_static_policy_becomes_a_policy() {
    let body = template("p", PrincipalConstraint::any(), None);
    let policy: Policy = StaticPolicy::try_from(body).expect("no slot").into();
    assert_eq!(policy.id(), &id("p"));
}
