//! Copies of stores and policy sets, which share: a change of one copy changes no other, and each copy has the results
//! of a store or a set that shares nothing.
mod common;
#[path = "common/policies.rs"]
mod policies;

use cedar_store::ast::{Entity, PolicyID, PolicySet};
use cedar_store::entities::{Entities, TCComputation};
use common::{Random, child, id, principal, rounds, with_eid};
use policies::{permit, principal_template};
use std::sync::Arc;

const NOW: TCComputation = TCComputation::ComputeNow;

/// Returns a store with the entities and the ancestors of another one, which shares nothing with it.
fn unshared(store: &Entities) -> Entities {
    let copy = |entity: &Entity| {
        let mut copy = Entity::with_uid(entity.uid().clone());
        entity.parents().for_each(|parent| copy.add_parent(parent.clone()));
        copy
    };
    Entities::from_entities(store.iter().map(copy), NOW).expect("no cycle")
}

/// Returns an entity whose parents have greater numbers, so that no cycle is possible.
fn entity(random: &mut Random, uids: usize) -> Arc<Entity> {
    let number = random.below(uids);
    let parents: Vec<String> = (0..random.below(3))
        .map(|_| (number + 1 + random.below(uids)).to_string())
        .collect();
    let parents: Vec<&str> = parents.iter().map(String::as_str).collect();
    Arc::new(child(&number.to_string(), &parents))
}

#[test]
fn edits_of_copies_of_stores_are_independent() {
    for round in 0..rounds(60) {
        let random = &mut Random::new(round);
        // a small store is scanned, and a large one lists the children of its uids
        let uids = *random.choose(&[12, 60, 400]);
        let start = (0..uids).map(|number| child(&number.to_string(), &[&(number + 7).to_string()]));
        let mut stores = vec![Entities::from_entities(start, NOW).expect("no cycle")];
        for _ in 0..40 {
            let place = random.below(stores.len());
            let mut copy = stores[place].clone();
            let before: Vec<String> = stores.iter().map(ToString::to_string).collect();
            let mut expected = unshared(&copy);
            let list: Vec<_> = (0..1 + random.below(3)).map(|_| entity(random, uids)).collect();
            if random.one_in(3) {
                let uids: Vec<_> = list.iter().map(|entity| entity.uid().clone()).collect();
                copy = copy.remove_entities(uids.clone(), NOW).expect("no cycle");
                expected = expected.remove_entities(uids, NOW).expect("no cycle");
            } else {
                copy = copy.upsert_entities(list.clone(), NOW).expect("no cycle");
                expected = expected.upsert_entities(list, NOW).expect("no cycle");
            }
            assert_eq!(copy.to_string(), expected.to_string(), "in round {round}");
            assert!(copy.deep_eq(&expected));
            assert!(stores.iter().map(ToString::to_string).eq(before), "in round {round}");
            if stores.len() < 4 {
                stores.push(copy);
            } else {
                stores[place] = copy;
            }
        }
    }
}

/// Returns the ids of the policies, and the ids of the links of the template, in their orders.
fn ids(set: &PolicySet) -> (Vec<PolicyID>, Vec<PolicyID>) {
    let links = set.get_linked_policies(&id("t")).expect("the template is present");
    (
        set.policies().map(|policy| policy.id().clone()).collect(),
        links.cloned().collect(),
    )
}

/// Makes a random change of a set, and the same change of the list of its policies.
fn change(random: &mut Random, set: &mut PolicySet, expected: &mut Vec<PolicyID>, number: usize) {
    if random.one_in(2) && !expected.is_empty() {
        let removed = expected.remove(random.below(expected.len()));
        if removed.as_ref().starts_with("link") {
            set.unlink(&removed).expect("it is a link");
        } else {
            set.remove_static(&removed).expect("it is a static policy");
        }
        return;
    }
    let is_link = random.one_in(2);
    let name = format!("{}{number}", if is_link { "link" } else { "static" });
    if is_link {
        let bound = principal(with_eid(&number.to_string()));
        set.link(id("t"), id(&name), bound).expect("the id is new");
    } else {
        set.add_static(permit(&name, None)).expect("the id is new");
    }
    expected.push(id(&name));
}

#[test]
fn changes_of_copies_of_sets_are_independent() {
    for round in 0..rounds(100) {
        let random = &mut Random::new(round);
        let mut first = PolicySet::new();
        first.add_template(principal_template("t")).expect("the id is new");
        let mut sets = vec![(first, Vec::new())];
        for number in 0..400 {
            if number % 30 == 0 {
                let copy = random.choose(&sets).clone();
                sets.truncate(4);
                sets.push(copy);
            }
            let place = random.below(sets.len());
            let (set, expected) = &mut sets[place];
            change(random, set, expected, number);
        }
        for (set, expected) in &sets {
            let links: Vec<_> = expected
                .iter()
                .filter(|id| id.as_ref().starts_with("link"))
                .cloned()
                .collect();
            assert_eq!(ids(set), (expected.clone(), links), "in round {round}");
            assert!(
                expected
                    .iter()
                    .all(|id| set.get(id).is_some_and(|policy| policy.id() == id))
            );
            let moved: Vec<_> = set.clone().into_policies().map(|policy| policy.id().clone()).collect();
            assert_eq!(&moved, expected);
        }
    }
}

#[test]
fn a_copy_of_a_policy_shares_its_template_and_its_id() {
    let mut set = PolicySet::new();
    set.add_template(principal_template("t")).expect("the id is new");
    set.link(id("t"), id("l"), principal(with_eid("1")))
        .expect("the id is new");
    let link = set.get(&id("l")).expect("it is present");
    let copy = link.clone();
    assert!(Arc::ptr_eq(link.template_arc(), copy.template_arc()));
    assert!(std::ptr::eq(link.id().as_ref(), copy.id().as_ref()));
    assert!(std::ptr::eq(link.env(), copy.env()));
    // a change of the copy leaves the link as it was
    let copy = copy.new_template_id(id("u")).expect("it is a link");
    assert_eq!((link.template().id(), copy.template().id()), (&id("t"), &id("u")));
    assert_eq!(copy.into_components().2, *link.env());
}
