//! Policy sets: merges, thousands of links and unlinks, iteration by value, and replays of calls on sets and stores.
#![allow(
    unreachable_patterns,
    reason = "the errors of `cedar-store-proved` have an additional variant"
)]
mod common;
#[path = "common/policies.rs"]
mod policies;

use cedar_store::ast::{
    Effect, EntityUID, LinkingError, Policy, PolicySet, PolicySetTemplateRemovalError, SlotEnv, Template,
};
use cedar_store::entities::{Entities, TCComputation};
use cedar_store::replay::{Answer, EntityCall, PolicyCall, replay_entities, replay_policies};
use common::{child, id, principal, resource, shared, uid, with_eid};
use policies::{permit, principal_template, resource_template};
use std::sync::Arc;

fn links_of(set: &PolicySet, template: &str) -> Vec<String> {
    let ids = set.get_linked_policies(&id(template)).expect("it is present");
    ids.map(ToString::to_string).collect()
}

/// Returns a set of a template `t` and links of it. Each link has an id, and the eid of the uid in its slot.
fn links_to(template: Template, bind: fn(EntityUID) -> SlotEnv, links: &[(&str, &str)]) -> PolicySet {
    let mut set = PolicySet::new();
    set.add_template(template).unwrap();
    for (name, eid) in links {
        set.link(id("t"), id(name), bind(with_eid(eid))).unwrap();
    }
    set
}

/// Returns a set of the principal's template `t` and links of it.
fn linked(links: &[(&str, &str)]) -> PolicySet {
    links_to(principal_template("t"), principal, links)
}

/// Returns a set of the resource's template `t` and links of it.
fn resource_linked(links: &[(&str, &str)]) -> PolicySet {
    links_to(resource_template("t"), resource, links)
}

#[test]
fn links_of_a_template_after_a_merge() {
    let mut set = linked(&[("l", "x")]);
    set.merge_policyset(&linked(&[("l", "x"), ("m", "y"), ("k", "x")]), true)
        .unwrap();
    assert_eq!(links_of(&set, "t"), ["l", "m", "k"]);
    // a conflicting template is renamed, together with its links
    let mut set = linked(&[("l", "x")]);
    let renaming = set
        .merge_policyset(&resource_linked(&[("m", "x"), ("n", "y")]), true)
        .unwrap();
    assert_eq!(renaming.get(&id("t")), Some(&id("policy0")));
    assert_eq!(
        (links_of(&set, "t"), links_of(&set, "policy0")),
        (vec!["l".into()], vec!["m".into(), "n".into()])
    );
    assert_eq!(set.get(&id("m")).unwrap().template().id(), &id("policy0"));
    // a conflicting link is renamed, and belongs to the same template
    let mut set = linked(&[("l", "x")]);
    set.merge_policyset(&linked(&[("l", "y")]), true).unwrap();
    assert_eq!(links_of(&set, "t"), ["l", "policy0"]);
    // a link that was removed is not restored, and a merged link can be removed
    let mut set = linked(&[("l", "x")]);
    set.unlink(&id("l")).unwrap();
    set.merge_policyset(&linked(&[("m", "y")]), true).unwrap();
    assert_eq!(links_of(&set, "t"), ["m"]);
    let mut set = linked(&[]);
    set.merge_policyset(&linked(&[("l", "x")]), true).unwrap();
    set.unlink(&id("l")).unwrap();
    assert!(links_of(&set, "t").is_empty());
    let mut set = linked(&[("l", "x")]);
    set.merge_policyset(&linked(&[("l", "x"), ("m", "y")]), true).unwrap();
    set.unlink(&id("l")).unwrap();
    assert!(matches!(
        set.remove_template(&id("t")),
        Err(PolicySetTemplateRemovalError::RemoveTemplateWithLinksError(reported)) if reported == id("t")
    ));
    // a static policy is listed under its own id
    let mut set = PolicySet::new();
    set.add_static(permit("a", None)).unwrap();
    let mut other = set.clone();
    other.add_static(permit("b", None)).unwrap();
    set.merge_policyset(&other, true).unwrap();
    assert_eq!(links_of(&set, "b"), ["b"]);
}

fn forbid(name: &str) -> Policy {
    let template = policies::template(
        name,
        Effect::Forbid,
        cedar_store::ast::PrincipalConstraint::any(),
        cedar_store::ast::ResourceConstraint::any(),
    );
    cedar_store::ast::Template::try_as_policy(shared(template)).expect("no slot")
}

#[test]
fn repeated_merge_chooses_new_ids() {
    let mut set = PolicySet::new();
    set.add_static(permit("a", None)).unwrap();
    let mut other = PolicySet::new();
    other.add(forbid("a")).unwrap();
    other.add_static(permit("b", None)).unwrap();
    for expected in ["policy0", "policy1"] {
        let renaming = set.merge_policyset(&other, true).unwrap();
        let renamed: Vec<_> = renaming.iter().map(|(old, new)| (old.clone(), new.clone())).collect();
        assert_eq!(renamed, [(id("a"), id(expected))]);
    }
    let names: Vec<_> = set.policies().map(|policy| policy.id().to_string()).collect();
    assert_eq!(names, ["a", "policy0", "b", "policy1"]);
}

/// A set has policies with the first 100 ids that a merge chooses. It is merged with a set of 100 or more policies, and
/// 100 of them conflict. Bodies and policies keep their insertion order, and the merged ones are last.
#[test]
fn insertion_order_after_renaming() {
    for other_count in [100, 101, 102, 500] {
        let name = |number: usize| id(&format!("policy{number}"));
        let (mut set, mut other) = (PolicySet::new(), PolicySet::new());
        for number in 0..100 {
            set.add_static(permit(name(number).as_ref(), None)).unwrap();
        }
        for number in 0..other_count {
            other.add(forbid(name(number).as_ref())).unwrap();
        }
        let renaming = set.merge_policyset(&other, true).unwrap();
        let renamed: Vec<_> = renaming.iter().map(|(old, new)| (old.clone(), new.clone())).collect();
        let expected: Vec<_> = (0..100)
            .map(|number| (name(number), name(number + other_count)))
            .collect();
        assert_eq!(renamed, expected);
        let expected: Vec<_> = (0..100)
            .map(|number| (name(number), Effect::Permit))
            .chain((0..100).map(|number| (name(number + other_count), Effect::Forbid)))
            .chain((100..other_count).map(|number| (name(number), Effect::Forbid)))
            .collect();
        let bodies: Vec<_> = set
            .all_templates()
            .map(|body| (body.id().clone(), body.effect()))
            .collect();
        let policies: Vec<_> = set
            .policies()
            .map(|policy| (policy.id().clone(), policy.effect()))
            .collect();
        assert_eq!((&bodies, &policies), (&expected, &expected));
    }
}

#[test]
fn thousands_of_links_and_unlinks() {
    let mut set = linked(&[]);
    let name = |number: usize| id(&number.to_string());
    for number in 0..2_000 {
        set.link(id("t"), name(number), principal(with_eid("x"))).unwrap();
    }
    assert_eq!(set.policies().count(), 2_000);
    for number in 0..2_000 {
        set.unlink(&name(number)).unwrap();
    }
    assert_eq!((set.policies().count(), set.all_templates().count()), (0, 1));
}

#[test]
fn copies_are_independent_and_singleton_equals_add() {
    let mut set = linked(&[("l", "x")]);
    set.add_static(permit("a", None)).unwrap();
    let copy = set.clone();
    assert_eq!(copy, set);
    set.unlink(&id("l")).unwrap();
    set.remove_template(&id("t")).unwrap();
    set.add(forbid("m")).unwrap();
    assert!(copy != set && copy.get(&id("l")).is_some() && copy.get(&id("m")).is_none());
    let singleton = PolicySet::singleton(forbid("a"));
    let mut added = PolicySet::new();
    assert!(added.is_empty());
    added.add(forbid("a")).unwrap();
    assert_eq!(singleton, added);
    added.remove_static(&id("a")).unwrap();
    assert!(added.is_empty());
    // linking returns a reference to the policy
    let mut set = linked(&[]);
    let link = set.link(id("t"), id("l"), principal(with_eid("x"))).unwrap();
    assert_eq!(link.id(), &id("l"));
}

/// Linking with a copy of bindings gives the same result as with the bindings.
#[test]
fn link_copying_equals_link() {
    let bindings = principal(with_eid("x"));
    let (mut set, mut other) = (linked(&[]), linked(&[]));
    for (template, name, values, succeeds) in [
        ("t", "l", &bindings, true),
        ("t", "l", &bindings, false),
        ("u", "m", &bindings, false),
        ("t", "m", &resource(with_eid("x")), false),
        ("t", "m", &SlotEnv::new(), false),
        ("t", "m", &bindings, true),
    ] {
        let result = set.link_copying(&id(template), id(name), values);
        let expected = other.link(id(template), id(name), values.clone()).map(|_| ());
        assert_eq!(result.is_ok(), succeeds);
        assert_eq!(
            result.map_err(|error| error.to_string()),
            expected.map_err(|error| error.to_string())
        );
        assert_eq!(set, other);
    }
    let template = Arc::new(principal_template("t"));
    let copied = Template::link_copying(template.clone(), id("l"), &bindings).unwrap();
    assert_eq!(copied, Template::link(template, id("l"), bindings).unwrap());
}

#[test]
fn replays_of_calls_on_a_policy_set() {
    let mut other = PolicySet::new();
    other.add_static(permit("policy1", None)).unwrap();
    other.add_static(permit("policy2", None)).unwrap();
    for (rename, new_id) in [(false, None), (true, Some(id("policy3")))] {
        let mut set = PolicySet::new();
        let calls = vec![
            PolicyCall::Add(Policy::from(permit("policy0", None))),
            PolicyCall::Add(forbid("policy1")),
            PolicyCall::Merge(other.clone(), rename),
            PolicyCall::Unlink(id("x")),
            PolicyCall::Link(id("t"), id("l"), SlotEnv::new()),
        ];
        let results = replay_policies(&mut set, calls);
        assert_eq!(results.len(), 5);
        assert!(matches!(results[0], Answer::Add(Ok(()))) && matches!(results[3], Answer::Unlink(Err(_))));
        match &results[2] {
            Answer::Merge(Ok(renaming)) => assert_eq!(renaming.get(&id("policy1")), new_id.as_ref()),
            Answer::Merge(Err(error)) => {
                assert_eq!(error.to_string(), "duplicate template or policy id `policy1`");
                assert!(!rename);
            }
            other => panic!("{other:?}"),
        }
        assert!(
            matches!(&results[4], Answer::Link(Err(LinkingError::NoSuchTemplate { id: reported })) if *reported == id("t"))
        );
        let names: Vec<_> = set.policies().map(|policy| policy.id().to_string()).collect();
        let expected = if rename {
            vec!["policy0", "policy1", "policy3", "policy2"]
        } else {
            vec!["policy0", "policy1"]
        };
        assert_eq!(names, expected);
    }
    let mut set = linked(&[("l", "x"), ("m", "y")]);
    let calls = vec![
        PolicyCall::Merge(set.clone(), false),
        PolicyCall::RemoveTemplate(id("t")),
    ];
    let results = replay_policies(&mut set, calls);
    assert!(matches!(&results[0], Answer::Merge(Ok(renaming)) if renaming.is_empty()));
    assert!(matches!(results[1], Answer::RemoveTemplate(Err(_))));
    assert!(replay_policies(&mut set, vec![]).is_empty());
}

#[test]
fn replays_of_calls_on_a_store() {
    assert!(replay_entities([]).is_ok_and(|store| store.is_empty() && !store.is_partial()));
    let store = replay_entities([
        EntityCall::From(vec![child("a", &["b"]), child("b", &["c"])]),
        EntityCall::Partial,
        EntityCall::Upsert(vec![shared(child("b", &["d"]))]),
        EntityCall::Remove(vec![uid(r#"A::"z""#)]),
    ])
    .expect("the call succeeds");
    assert!(store.is_partial() && store.len() == 2);
    let reset = replay_entities([EntityCall::Partial, EntityCall::From(vec![child("a", &[])])]).unwrap();
    assert!(!reset.is_partial());
    match replay_entities([
        EntityCall::Add(vec![shared(child("a", &["b"]))]),
        EntityCall::Add(vec![shared(child("b", &["a"]))]),
    ]) {
        Err((done, _)) => assert_eq!(done, 1),
        Ok(store) => panic!("{store}"),
    }
    let plain = Entities::from_entities([child("a", &["b"]), child("b", &["d"])], TCComputation::ComputeNow).unwrap();
    assert!(store.deep_eq(&plain.partial()));
}
