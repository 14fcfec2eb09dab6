//! The test cases of the original for uids, types and entities, under the same names.
mod common;

use cedar_store::ast::{ACTION_ENTITY_TYPE, Eid, Entity, EntityType, EntityUID, Id, Name, PartialValue, Value};
use cedar_store::entities::EntitiesError;
use common::{uid, with_eid};
use std::collections::HashSet;

#[test]
fn display() {
    assert_eq!(with_eid("eid").to_string(), r#"test_entity_type::"eid""#);
}

#[test]
fn test_euid_equality() {
    let of_type = |ty: &str| {
        let name = Name::parse_unqualified_name(ty).unwrap();
        EntityUID::from_components(name.into(), Eid::Eid("foo".into()), None)
    };
    let one = with_eid("foo");
    assert_eq!(one, one);
    assert_eq!(one, of_type("test_entity_type"));
    assert_ne!(one, of_type("Unspecified"));
}

#[test]
fn action_checker() {
    for (text, is_action) in [
        (r#"Action::"view""#, true),
        (r#"Foo::Action::"view""#, true),
        (r#"Foo::"view""#, false),
        (r#"Action::Foo::"view""#, false),
    ] {
        assert_eq!(uid(text).is_action(), is_action, "{text}");
        assert_eq!(uid(text).entity_type().is_action(), is_action, "{text}");
    }
}

#[test]
fn action_type_is_valid_id() {
    assert!(Id::from_normalized_str(ACTION_ENTITY_TYPE).is_ok());
}

#[test]
fn validate_rejects_reserved_key_in_value() {
    let tagged = |value: Value| {
        Entity::new_with_attr_partial_value(
            with_eid("a"),
            [],
            HashSet::new(),
            HashSet::new(),
            [("t".to_string(), PartialValue::from(value))],
        )
        .validate()
    };
    for key in ["__extn", "__expr", "__entity"] {
        let record = Value::record([(key, Value::from(true))], None);
        let deep = Value::set([Value::set([record.clone()], None)], None);
        for value in [record, deep] {
            match tagged(value) {
                Err(EntitiesError::ReservedKey(reported)) => assert_eq!(reported, key),
                other => panic!("{key}: {other:?}"),
            }
        }
    }
    assert!(tagged(Value::record([("ordinary", Value::from(1))], None)).is_ok());
}

#[test]
fn normalized_euid() {
    for text in [
        r#"A::"alice""#,
        r#"A::B::"alice""#,
        r#"A::"has spaces""#,
        r#"A::"A::B::\"quoted\"""#,
    ] {
        assert!(EntityUID::from_normalized_str(text).is_ok(), "{text}");
    }
    for text in [
        r#" A::"alice""#,
        r#"A :: "alice""#,
        r#"A::"alice" "#,
        r#"A::"alice"//comment"#,
        r#"A::"\u{0041}""#,
        r#"__cedar::"alice""#,
        "A::alice",
    ] {
        assert!(EntityUID::from_normalized_str(text).is_err(), "{text}");
    }
}

/// The original compares its fast reader with its parser. This test checks that a text is accepted exactly if it is the
/// printed form of the uid that is read. It also checks the eid.
#[test]
fn normalized_euid_matches_default() {
    for (text, eid) in [
        (r#"A::"alice""#, Some("alice")),
        (r#"A::B::"alice""#, Some("alice")),
        (r#"Namespace::Type::"a::b::c""#, Some("a::b::c")),
        (r#"A::"has spaces""#, Some("has spaces")),
        (r#"A::"it's""#, None),
        (r#"A::"it\'s""#, Some("it's")),
        (r#"A::"é""#, Some("é")),
        (r#"A::"\n""#, Some("\n")),
        (r#"A::"\t\\""#, Some("\t\\")),
        (r#"A::"A::B::\"quoted\"""#, Some("A::B::\"quoted\"")),
        (r#"A::"""#, Some("")),
        (r#"A::"\u{0041}""#, None),
        (r#"A::"a"b""#, None),
        (r#" A::"alice""#, None),
        (r#"A :: "alice""#, None),
        (r#"A::"alice" "#, None),
        (r#"A::"alice"//comment"#, None),
        (r#"__cedar::"alice""#, None),
        (r#"if::"alice""#, None),
        ("A::alice", None),
        ("A::B", None),
        ("", None),
        (r#""alice""#, None),
    ] {
        let parsed = EntityUID::from_normalized_str(text).ok();
        assert_eq!(parsed.as_ref().map(|uid| uid.eid().as_ref()), eid, "{text}");
        if let Some(parsed) = parsed {
            assert_eq!(parsed.to_string(), text);
        }
    }
}

#[test]
fn euid_ordering_matches_type_then_eid() {
    let (late_eid, late_type, early) = (uid(r#"AA::"zzz""#), uid(r#"B::"aaa""#), uid(r#"AA::"aaa""#));
    assert!(late_eid < late_type);
    assert!(early < late_eid);
}

#[test]
fn entity_type_parses_and_displays() {
    let ty = EntityType::from_normalized_str("some::entity_type").unwrap();
    assert_eq!(ty.to_string(), "some::entity_type");
    assert_eq!(ty.name().basename().as_ref(), "entity_type");
    assert!(EntityType::from_normalized_str("some::__cedar").is_err());
}

mod validate_test {
    use super::*;

    fn entity_with(uid: EntityUID, parents: &[&EntityUID], indirect_ancestors: &[&EntityUID]) -> Entity {
        let all = |uids: &[&EntityUID]| uids.iter().map(|uid| (*uid).clone()).collect();
        Entity::new_with_attr_partial_value(uid, [], all(indirect_ancestors), all(parents), [])
    }

    #[test]
    fn self_in_parents_rejected() {
        let self_uid = with_eid("self");
        let entity = entity_with(self_uid.clone(), &[&self_uid], &[]);
        assert!(matches!(entity.try_validate(), Err(EntitiesError::SelfAncestor { uid }) if uid == self_uid));
    }

    #[test]
    fn self_in_indirect_ancestors_rejected() {
        let self_uid = with_eid("self");
        let entity = entity_with(self_uid.clone(), &[], &[&self_uid]);
        assert!(matches!(entity.try_validate(), Err(EntitiesError::SelfAncestor { uid }) if uid == self_uid));
    }

    #[test]
    fn no_self_ancestor_accepted() {
        assert!(entity_with(with_eid("ok"), &[], &[]).try_validate().is_ok());
    }

    #[test]
    fn duplicate_ancestor_rejected() {
        let parent_uid = with_eid("parent");
        let entity = entity_with(with_eid("child"), &[&parent_uid], &[&parent_uid]);
        assert!(
            matches!(entity.try_validate(), Err(EntitiesError::DuplicateAncestor { ancestor, .. }) if ancestor == parent_uid)
        );
    }

    #[test]
    fn action_with_non_action_parent_rejected() {
        let user = uid(r#"User::"alice""#);
        let entity = entity_with(uid(r#"Action::"view""#), &[&user], &[]);
        assert!(
            matches!(entity.try_validate(), Err(EntitiesError::ActionParentIsNotAction { parent, .. }) if parent == user)
        );
    }

    #[test]
    fn action_with_action_parent_accepted() {
        let entity = entity_with(uid(r#"Action::"view""#), &[&uid(r#"Action::"read""#)], &[]);
        assert!(entity.try_validate().is_ok());
    }

    #[test]
    fn non_action_with_action_parent_accepted() {
        let entity = entity_with(uid(r#"User::"alice""#), &[&uid(r#"Action::"read""#)], &[]);
        assert!(entity.try_validate().is_ok());
    }
}
