//! Tests of deep copies of stores and policy sets in other threads.
mod short;
use cedar_store_proved::ast::{Eid, Entity, EntityType, EntityUID, PolicySet, Value};
use cedar_store_proved::{Entities, EntitiesDeepCopy, PolicySetDeepCopy, Reason, TCComputation};
use std::sync::mpsc;
use std::thread;

fn uid(id: &str) -> EntityUID {
    let ty = EntityType::from_normalized_str("N::A").unwrap();
    EntityUID::from_components(ty, Eid::new(id), None)
}

// Returns a chain in which each entity is a child of the next, with an attribute and a tag. The eids contain every
// character except surrogates.
fn chain(length: usize) -> Entities {
    let entities = (0..length).map(|n| {
        let value = Value::set([Value::from(n as i64), Value::from(uid("v"))], None);
        let entity = Entity::with_uid(uid(&n.to_string())).with_attr("n", value);
        let entity = entity.with_tag("t", Value::from(format!("{n}")));
        entity.with_parent(uid(&(n + 1).to_string()))
    });
    Entities::from_entities(entities, TCComputation::ComputeNow).unwrap()
}

fn assert_send<T: Send>(_: &T) {}

#[test]
fn a_store_copy_works_in_another_thread() {
    let store = chain(20);
    let copy = store.deep_copy().unwrap();
    assert_send(&copy);
    let (sender, receiver) = mpsc::channel::<EntitiesDeepCopy>();
    let other = thread::spawn(move || {
        let mut store = receiver.recv().unwrap().into_inner();
        assert!(store.is_descendant_of(uid("0"), uid("20")).unwrap());
        assert_eq!(
            store.get(uid("3"), "n").unwrap().unwrap().to_string(),
            r#"[3, N::A::"v"]"#
        );
        store.remove([uid("5")], TCComputation::ComputeNow).unwrap();
        assert!(!store.is_descendant_of(uid("0"), uid("20")).unwrap());
        store.deep_copy().unwrap()
    });
    sender.send(copy).unwrap();
    let back = other.join().unwrap().into_inner();
    assert_eq!((store.len(), back.len()), (20, 19));
    assert!(store.is_descendant_of(uid("0"), uid("20")).unwrap());
    let without = store
        .try_clone()
        .unwrap()
        .remove_entities([uid("5")], TCComputation::ComputeNow);
    assert!(without.unwrap().deep_eq(&back));
}

#[test]
fn each_of_many_threads_can_have_a_copy() {
    let store = chain(60).partial();
    thread::scope(|scope| {
        for from in 0..8usize {
            let copy = store.deep_copy().unwrap();
            let part = store
                .slice_deep_copy([uid(&(from * 7).to_string())])
                .unwrap();
            scope.spawn(move || {
                let (copy, part) = (copy.into_inner(), part.into_inner());
                assert!(copy.is_partial() && !part.is_partial());
                assert_eq!((copy.len(), part.len()), (60, 60 - from * 7));
                for _ in 0..10 {
                    let shared = copy.try_clone().unwrap();
                    assert!(
                        shared.deep_eq(&copy)
                            && shared.deep_eq(&copy.deep_copy().unwrap().into_inner())
                    );
                    let parents: Vec<_> = part.uids().unwrap();
                    assert!(parents.iter().all(|uid| copy.contains(uid).unwrap()));
                }
            });
        }
        for _ in 0..10 {
            assert!(store.try_clone().unwrap().deep_eq(&store));
        }
    });
}

#[test]
fn each_character_of_an_eid_is_copied() {
    let characters: Vec<char> = (0..=0x10ffff).filter_map(char::from_u32).collect();
    let entities = characters.chunks(4096).map(|chunk| {
        let text: String = chunk.iter().collect();
        let value = Value::set([Value::from(uid(&text)), Value::from(text.as_str())], None);
        Entity::with_uid(uid(&text))
            .with_attr(text.as_str(), value)
            .with_parent(uid(&text[..chunk[0].len_utf8()]))
    });
    let store = Entities::from_entities(entities, TCComputation::ComputeNow).unwrap();
    let copy = store.deep_copy().unwrap().into_inner();
    assert!(copy.deep_eq(&store));
    for uid in store.uids().unwrap() {
        assert_eq!(copy.parents(&uid).unwrap(), store.parents(&uid).unwrap());
    }
}

#[test]
fn unused_copies_are_freed() {
    let store = chain(3);
    drop(store.deep_copy().unwrap());
    let copy = store.deep_copy().unwrap();
    thread::spawn(move || drop(copy)).join().unwrap();
    let error = store.slice_deep_copy(["no uid"]).map(|_| ()).unwrap_err();
    assert_eq!(error.reason(), Reason::NotAUid);
}

fn sample_set() -> PolicySet {
    short::set(&[
        "permit s",
        "template t pr",
        "link t l pr",
        "forbid w",
        "template u a",
        "link u m a",
        "link t n pr",
        "permit z",
    ])
}

#[test]
fn a_set_copy_works_in_another_thread() {
    let set = sample_set();
    let mut copy: PolicySetDeepCopy = set.deep_copy().unwrap();
    assert_send(&copy);
    let more = short::set(&["forbid s", "template o p", "link o k p"]);
    assert_eq!(copy.merge_policyset(&more, true).unwrap().len(), 1);
    let text = set.to_string();
    let other = thread::spawn(move || {
        let mut set = copy.into_inner();
        let renamed = set.get(&short::id("policy0")).unwrap().effect();
        set.unlink(&short::id("k")).unwrap();
        set.remove_template(&short::id("o")).unwrap();
        set.remove_static(&short::id("policy0")).unwrap();
        (renamed, set.to_string(), set.deep_copy().unwrap())
    });
    let (renamed, sent_text, back) = other.join().unwrap();
    assert_eq!(renamed, cedar_store_proved::ast::Effect::Forbid);
    assert_eq!(sent_text, text);
    assert!(back.into_inner() == set);
}

#[test]
fn copies_keep_the_order_of_policies() {
    let mut set = sample_set();
    assert!(set.deep_copy().unwrap().into_inner() == set);
    set.remove_static(&short::id("w")).unwrap();
    short::add_item(&mut set, "permit w").unwrap();
    set.unlink(&short::id("l")).unwrap();
    short::add_item(&mut set, "link t l pr").unwrap();
    assert!(set.deep_copy().unwrap().into_inner() == set);
    // items of both sets keep their positions, and new items are last
    let mut other = short::set(&["template t pr", "forbid v", "link t i pr"]);
    let merged = other.merge_policyset(&set, true).unwrap();
    assert!(merged.is_empty());
    let copy = other.deep_copy().unwrap().into_inner();
    assert!(copy == other && copy != set);
    assert_eq!(copy.policy_ids().unwrap(), other.policy_ids().unwrap());
    assert_eq!(copy.body_ids().unwrap(), other.body_ids().unwrap());
    assert!(PolicySet::new().deep_copy().unwrap().into_inner() == PolicySet::new());
}

// A generator of pseudorandom numbers.
struct Random(u64);

impl Random {
    fn number(&mut self, end: u64) -> u64 {
        self.0 ^= self.0 << 13;
        self.0 ^= self.0 >> 7;
        self.0 ^= self.0 << 17;
        self.0 % end
    }

    // Makes a call on a set, with one of a few ids. The call may return an error.
    fn step(&mut self, set: &mut PolicySet, other: &PolicySet) {
        let (first, second) = (self.number(12), self.number(12));
        let spec = match self.number(10) {
            0 => format!("permit i{first}"),
            1 => format!("forbid i{first}"),
            2 => format!("template i{first} pr"),
            3..=5 => format!("link i{first} i{second} pr"),
            6 => return drop(set.unlink(&short::id(&format!("i{first}")))),
            7 => return drop(set.remove_static(&short::id(&format!("i{first}")))),
            8 => return drop(set.remove_template(&short::id(&format!("i{first}")))),
            _ => return drop(set.merge_policyset(other, second > 3)),
        };
        drop(short::add_item(set, &spec));
    }
}

#[test]
fn copies_of_random_sets_are_equal() {
    let mut random = Random(0x5eed);
    for _ in 0..300 {
        let (mut first, mut second) = (PolicySet::new(), PolicySet::new());
        for _ in 0..40 {
            random.step(&mut first, &second);
            random.step(&mut second, &first);
            if first.policy_ids().unwrap().len() > 200 {
                break;
            }
        }
        for set in [&first, &second] {
            assert!(set.deep_copy().unwrap().into_inner() == *set);
        }
    }
}
