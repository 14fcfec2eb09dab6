//! Edge cases. Each of them detects a mutant of the package.
mod common;
#[path = "common/policies.rs"]
mod policies;

use cedar_store::ast::{Effect, EntityType, Id, PolicySet, PrincipalConstraint, ResourceConstraint, SlotEnv, SlotId};
use common::{id, resource, uid};
use policies::{principal_template, resource_template, template};
use std::sync::Arc;

#[test]
fn reserved_words_are_not_identifiers() {
    for word in [
        "true", "false", "if", "then", "else", "in", "is", "like", "has", "__cedar",
    ] {
        assert!(Id::from_normalized_str(word).is_err(), "{word}");
        assert!(Id::from_normalized_str(&format!("{word}_")).is_ok(), "{word}");
    }
}

#[test]
fn display_of_a_set_with_one_template_is_not_empty() {
    let mut set = PolicySet::new();
    assert_eq!(set.to_string(), "<empty policyset>");
    set.add_template(principal_template("t")).unwrap();
    assert!(set.to_string().starts_with("Templates:\n"), "{set}");
}

#[test]
fn links_with_equal_bindings_are_equal() {
    let (principals, resources) = (PrincipalConstraint::is_eq_slot(), ResourceConstraint::is_eq_slot());
    let link = |name: &str, values: &[(SlotId, &str)]| {
        let mut set = PolicySet::new();
        let two_slots = template("t", Effect::Permit, principals.clone(), resources.clone());
        set.add_template(two_slots).unwrap();
        let values: SlotEnv = values.iter().map(|(slot, text)| (*slot, uid(text))).collect();
        set.link(id("t"), id(name), values).unwrap().clone()
    };
    let link_of = |first: &str, second: &str| link("l", &[(SlotId::principal(), first), (SlotId::resource(), second)]);
    let one = link_of(r#"A::"a""#, r#"A::"b""#);
    assert!(one == link_of(r#"A::"a""#, r#"A::"b""#));
    assert!(one != link_of(r#"A::"a""#, r#"A::"c""#) && one != link_of(r#"A::"c""#, r#"A::"b""#));
    assert!(
        one.to_string().contains(r#"?principal -> A::"a",?resource -> A::"b""#),
        "{one}"
    );
    // the text of a link with one slot has no comma
    let mut set = PolicySet::new();
    set.add_template(resource_template("t")).unwrap();
    let text = set
        .link(id("t"), id("l"), resource(uid(r#"A::"b""#)))
        .unwrap()
        .to_string();
    assert!(
        text.contains(r#"?resource -> A::"b""#) && !text.contains(",?resource"),
        "{text}"
    );
}

#[test]
fn constraint_order_agrees_with_equality() {
    let of_type = |name: &str| Arc::new(EntityType::from_normalized_str(name).unwrap());
    let any = PrincipalConstraint::any();
    let eq = PrincipalConstraint::is_eq(Arc::new(uid(r#"A::"a""#)));
    let within = PrincipalConstraint::is_in(Arc::new(uid(r#"A::"a""#)));
    let is = PrincipalConstraint::is_entity_type(of_type("A"));
    let is_in = PrincipalConstraint::is_entity_type_in(of_type("A"), Arc::new(uid(r#"A::"a""#)));
    let all = [any, eq, within, is, is_in];
    for one in &all {
        for other in &all {
            assert_eq!(one.cmp(other), other.cmp(one).reverse(), "{one} {other}");
            assert_eq!(one.cmp(other).is_eq(), one == other, "{one} {other}");
        }
    }
}
