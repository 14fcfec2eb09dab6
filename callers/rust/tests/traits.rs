//! Tests of the traits of the standard library that the types implement, and of the paths of the types.
mod short;
use cedar_store_proved::ast::{self, Eid, Entity, EntityType, EntityUID, ParseErrors};
use cedar_store_proved::entities::{Dereference, Entities, EntitiesError, TCComputation};
use cedar_store_proved::{Effect, Error, PolicySet, Reason, Slots};
use short::parse_uid;
use std::collections::HashSet;
use std::sync::Arc;

const NOW: TCComputation = TCComputation::ComputeNow;

fn staff() -> Vec<Entity> {
    ["User::\"alice\"", "User::\"bob\""]
        .map(|uid| Entity::with_uid(parse_uid(uid)).with_parent(parse_uid("Group::\"staff\"")))
        .to_vec()
}

#[test]
fn entities_are_accepted_by_value_borrowed_and_shared() {
    let list = staff();
    let mode = TCComputation::default();
    let stores = [
        Entities::from_entities(&list, mode).unwrap(),
        Entities::from_entities(list.iter(), mode).unwrap(),
        Entities::from_entities(list.iter().rev(), mode).unwrap(),
        Entities::from_entities(list.clone(), mode).unwrap(),
        Entities::from_entities(list.iter().cloned().map(Arc::new), mode).unwrap(),
    ];
    assert!(stores.iter().all(|store| store.deep_eq(&stores[0])));
    let store = Entities::from_entities(std::iter::empty::<Entity>(), mode).unwrap();
    let mut store = store
        .add_entities(staff().into_iter().map(Arc::new), mode)
        .unwrap();
    store.upsert(&staff()[..1], mode).unwrap();
    assert!(store.deep_eq(&stores[0]));
}

#[test]
fn parents_are_added_one_by_one_or_as_a_list() {
    let mut entity = Entity::with_uid(short::uid("a"));
    entity.add_parent(short::uid("b"));
    entity.extend(short::uids("cd"));
    let expected = Entity::with_uid(short::uid("a")).with_parents(short::uids("dbc"));
    assert!(entity.deep_eq(&expected) && expected.parents().eq(&short::uids("bcd")));
    assert_eq!(HashSet::from([entity, expected]).len(), 1);
}

#[test]
fn effects_stores_and_sets_are_displayed() {
    assert_eq!(
        format!("{} {}", Effect::Permit, Effect::Forbid),
        "permit forbid"
    );
    assert!(Effect::Permit < Effect::Forbid);
    let store = Entities::from_entities(staff(), NOW).unwrap();
    let alice = store.entity(&parse_uid("User::\"alice\"")).unwrap();
    let text_of = |name| format!("User::\"{name}\":\n  attrs:\n  ancestors:Group::\"staff\"");
    assert_eq!(alice.to_string(), text_of("alice"));
    assert_eq!(
        store.to_string(),
        text_of("alice") + "\n" + &text_of("bob") + "\n"
    );
    assert_eq!(Entities::new().to_string(), "<empty Entities>");
    assert_eq!(format!("{store:?}"), "Entities { len: 2, .. }");
    assert_eq!(PolicySet::new().to_string(), "<empty policyset>");
}

#[test]
fn large_stores_are_displayed_like_small_ones() {
    let entity = |k: usize| {
        let uid = parse_uid(&format!("{}::\"n{k}\"", ["B", "A"][k % 2]));
        Entity::with_uid(uid).with_parent(short::uid("x"))
    };
    let text = |count: usize| {
        let store = (0..count).map(entity).collect::<Result<Entities, _>>();
        store.unwrap().to_string()
    };
    let expected: Vec<String> = (0..300).map(|k| format!("{}\n", entity(k))).collect();
    let sorted = |count: usize| {
        let mut texts = expected[..count].to_vec();
        texts.sort();
        texts.concat()
    };
    for count in [2, 100, 101, 300] {
        assert_eq!(text(count), sorted(count));
    }
}

#[test]
fn a_store_is_iterated_and_collected() {
    let store: Result<Entities, EntitiesError> = staff().into_iter().collect();
    let store = store.unwrap();
    assert_eq!((store.iter().len(), (&store).into_iter().count()), (2, 2));
    let uids: HashSet<EntityUID> = store.iter().map(|entity| entity.uid().clone()).collect();
    assert_eq!(uids, store.uids().unwrap().into_iter().collect());
    for entity in &store {
        assert!(uids.contains(entity.uid().as_str()));
        let original = staff()
            .into_iter()
            .find(|original| entity == *original)
            .unwrap();
        assert!(entity.deep_eq(&original) && entity.clone().into_entity().deep_eq(&original));
    }
    let uids = store.uids().unwrap();
    let store = store.remove_entities(uids, NOW).unwrap();
    assert!(store.iter().next().is_none());
    let store = store.add_entities(staff(), NOW).unwrap();
    let collected: Vec<Entity> = store.into_iter().collect();
    assert!(collected.len() == 2 && staff().iter().all(|entity| collected.contains(entity)));
    let cycle = short::parse_entities("a a");
    let error = cycle
        .into_iter()
        .collect::<Result<Entities, _>>()
        .unwrap_err();
    let error = Error::from(error);
    assert_eq!((error.reason(), error.uids().len()), (Reason::Cycle, 1));
}

#[test]
fn equality_of_stores_compares_uids() {
    let store = Entities::from_entities(staff(), NOW).unwrap();
    let without_parents =
        ["User::\"bob\"", "User::\"alice\""].map(|uid| Entity::with_uid(parse_uid(uid)));
    let other = Entities::from_entities(without_parents, NOW).unwrap();
    assert!(store == other && !store.deep_eq(&other));
    assert!(store == store.clone() && store.deep_eq(&store.try_clone().unwrap()));
    assert_ne!(store, store.slice(["User::\"bob\""]).unwrap());
    let same = ["User::\"bob\"", "User::\"eve\""].map(|uid| Entity::with_uid(parse_uid(uid)));
    assert_ne!(store, Entities::from_entities(same, NOW).unwrap());
    assert_ne!(store.clone().partial(), store);
    assert!(!store.clone().partial().deep_eq(&store));
    let bob = parse_uid("User::\"bob\"");
    let (stored, other_stored) = (store.entity(&bob).unwrap(), other.entity(&bob).unwrap());
    assert!(stored == other_stored && !stored.deep_eq(&other_stored) && stored.deep_eq(&stored));
    assert!(!store.entity_equal(&bob, &other).unwrap());
    assert!(store.entity_equal(&bob, &store).unwrap());
    assert!(store.entity_equal(&bob, &store.clone()).unwrap());
    let error = store.entity_equal("A::\"a\"", &store).unwrap_err();
    assert_eq!(error.reason(), Reason::NoEntity);
}

#[test]
fn absent_entities_of_a_partial_store_are_unknown() {
    let store = Entities::from_entities(staff(), NOW).unwrap();
    let absent = parse_uid("Group::\"staff\"");
    assert!(matches!(store.entity(&absent), Dereference::NoSuchEntity) && !store.is_partial());
    let store = store.partial();
    let Dereference::Residual(unknown) = store.entity(&absent) else {
        panic!("expected an unknown entity");
    };
    assert_eq!(unknown.to_string(), "unknown(\"Group::\\\"staff\\\"\")");
    let ast::ExprNode::Unknown(unknown) = unknown.node() else {
        panic!("expected an unknown");
    };
    let ty = EntityType::from_normalized_str("Group").unwrap();
    let entity_type = ast::StaticType::Entity { ty };
    assert_eq!(unknown.type_annotation, Some(entity_type));
    assert!(store.is_partial() && store.entity(&absent).data().is_none());
    assert!(store.try_clone().unwrap().is_partial());
    assert!(!store.slice(["User::\"bob\""]).unwrap().is_partial());
    assert!(!store.contains(&absent).unwrap());
}

#[test]
#[should_panic(expected = "unwrap() called on Residual(")]
fn unwrap_panics_for_an_unknown_entity() {
    Entities::new().partial().entity(&short::uid("a")).unwrap();
}

#[test]
#[should_panic(expected = "expect() called on NoSuchEntity, msg: alice")]
fn expect_panics_for_an_absent_entity() {
    Entities::new().entity(&short::uid("a")).expect("alice");
}

#[test]
fn queries_of_an_absent_entity_are_errors() {
    let store = Entities::from_entities(staff(), NOW).unwrap();
    let absent = "Group::\"staff\"";
    let errors = [
        store.keys(absent).unwrap_err(),
        store.tag_keys(absent).unwrap_err(),
        store.attrs_len(absent).unwrap_err(),
        store.tags_len(absent).unwrap_err(),
        store.get(absent, "k").unwrap_err(),
        store.get_tag(absent, "k").unwrap_err(),
        store.indirect_ancestors(absent).unwrap_err(),
        store.is_child_of(absent, absent).unwrap_err(),
        store.is_indirect_descendant_of(absent, absent).unwrap_err(),
    ];
    assert!(errors
        .iter()
        .all(|error| error.reason() == Reason::NoEntity));
}

#[test]
fn uids_are_built_from_and_split_into_components() {
    for (ty, eid, text) in [
        ("User", "alice", "User::\"alice\""),
        ("A::B", "O'Brien", "A::B::\"O\\'Brien\""),
        ("A", "", "A::\"\""),
        ("A", "a\"b\n\\", "A::\"a\\\"b\\n\\\\\""),
        ("N::Action", "é", "N::Action::\"é\""),
    ] {
        let uid = EntityUID::with_eid_and_type(ty, eid).unwrap();
        assert_eq!(uid, text);
        assert_eq!(
            (uid.entity_type(), uid.eid()),
            (&ty.parse().unwrap(), &Eid::new(eid))
        );
        assert_eq!(uid, text.parse::<EntityUID>().unwrap());
        assert_eq!(uid.eid().escaped(), &text[ty.len() + 3..text.len() - 1]);
        assert_eq!(uid.is_action(), ty == "N::Action");
        let (ty, eid) = uid.clone().components();
        assert_eq!(EntityUID::from_components(ty, eid, None), uid);
        assert_eq!(
            (uid.to_string(), format!("{uid:?}")),
            (text.into(), format!("{text:?}"))
        );
        let store = Entities::from_entities([Entity::with_uid(uid.clone())], NOW).unwrap();
        assert!(store.contains(&uid).unwrap());
    }
    // An id that is much longer after escaping.
    let id = "\u{1}\u{200b}".repeat(500);
    let uid = EntityUID::with_eid_and_type("A", &id).unwrap();
    assert_eq!(uid.eid(), &Eid::new(id));
}

#[test]
fn uids_have_the_order_of_a_store() {
    let texts = [
        "A::\"b\"",
        "A::\"a\\nz\"",
        "A::\"a\"",
        "A::\"a b\"",
        "A::\"\"",
        "B::A::\"a\"",
        "A::B::\"a\"",
        "A::A::\"a\"",
        "A::B::A::\"a\"",
        "AA::\"a\"",
        "a::\"a\"",
        "A::\"é\"",
        "A::\"a\\\"\"",
        "A::\"\\u{1}\"",
        "B::\"a\"",
        "A::\"Z\"",
    ];
    let uids = texts.map(parse_uid);
    let entity = Entity::with_uid(short::uid("x")).with_parents(uids.clone());
    let store = Entities::from_entities([entity], NOW).unwrap();
    let mut sorted = uids.to_vec();
    sorted.sort();
    assert_eq!(store.parents(short::uid("x")).unwrap(), sorted);
    for uid in &uids {
        for other in &uids {
            assert_eq!(uid.cmp(other).is_eq(), uid == other);
            assert_eq!(uid.cmp(other), other.cmp(uid).reverse());
        }
    }
}

#[test]
fn an_invalid_uid_is_an_error() {
    for ty in ["", "A B", "if", "A::", "1", "A::\"a\""] {
        let error = EntityUID::with_eid_and_type(ty, "a").unwrap_err();
        assert_eq!(error, ParseErrors::InvalidName);
        assert_eq!(ty.parse::<EntityType>().unwrap_err(), error);
        short::assert_error::<(), _>(Err(error), Reason::NotAName, "not a name");
    }
    for text in ["", "a", "A::a", "A::\"a\" ", "A::\"a\"b\""] {
        let error = text.parse::<EntityUID>().unwrap_err();
        assert_eq!(error, ParseErrors::NotNormalized);
        short::assert_error::<(), _>(Err(error), Reason::NotAUid, "not a uid");
    }
    let error = "if::\"a\"".parse::<EntityUID>().unwrap_err();
    assert_eq!(error, ParseErrors::InvalidName);
}

#[test]
fn an_error_names_uids() {
    let name = EntityUID::with_eid_and_type("N::A", "x \" A::\"b\" \\").unwrap();
    let cycle = Entity::with_uid(name.clone()).with_parent(name.clone());
    let error = Entities::new().add([cycle], NOW).unwrap_err();
    assert_eq!(error.uids(), [name]);
    let result = Entities::from_entities(
        short::parse_entities("a b;b c"),
        TCComputation::EnforceAlreadyComputed,
    );
    assert_eq!(Error::from(result.unwrap_err()).uids(), short::uids("abc"));
    let mut set = PolicySet::new();
    set.bind_static("A::\"a\"", Effect::Permit).unwrap();
    let error = set.bind_static("A::\"a\"", Effect::Permit).unwrap_err();
    assert!(Error::from(error).uids().is_empty());
}

#[test]
fn plain_data_is_send_and_sync() {
    fn assert_send_and_sync<T: Send + Sync + 'static>() {}
    assert_send_and_sync::<EntityUID>();
    assert_send_and_sync::<(Eid, EntityType, Entity, EntitiesError)>();
    assert_send_and_sync::<(ast::Value, ast::Expr, ast::Policy, ast::Template)>();
    assert_send_and_sync::<(ast::StaticPolicy, ast::TemplateBody, ast::ActionConstraint)>();
    assert_send_and_sync::<(ast::PrincipalConstraint, ast::ResourceConstraint)>();
}

fn failing_edit() -> Result<(), Box<dyn std::error::Error + Send + Sync>> {
    let mut set = ast::PolicySet::new();
    set.bind_template("t", ast::Effect::Permit, Slots::none())?;
    set.bind_static("t", Effect::Permit)?;
    Ok(())
}

#[test]
fn an_error_can_be_sent_to_another_thread() {
    let error = std::thread::spawn(failing_edit)
        .join()
        .unwrap()
        .unwrap_err();
    assert_eq!(error.to_string(), "duplicate template or policy id `t`");
    let error = *error.downcast::<ast::PolicySetError>().unwrap();
    let converted = Error::from(error.clone());
    assert_eq!(
        (converted.reason(), converted.to_string()),
        (Reason::Occupied, "occupied t".into())
    );
    assert_eq!(ast::PolicySetError::from(converted), error);
}

#[test]
fn equality_of_sets_compares_their_items() {
    let mut set = PolicySet::default();
    let other = set.clone();
    assert_eq!(set, other);
    set.bind_static("p", Effect::Permit).unwrap();
    assert_ne!(set, other);
    assert_eq!(set.policies().last().unwrap().id(), &short::id("p"));
}
