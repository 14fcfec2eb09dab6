//! The texts of bodies, templates, static policies and links, their conditions, the order of their slots, their
//! annotations, and the unknown entities in them.
mod common;

use cedar_store::ast::{
    ActionConstraint, Annotation, Annotations, AnyId, Effect, EntityType, EntityUID, Expr, Policy, PrincipalConstraint,
    ResourceConstraint, SlotEnv, SlotId, StaticPolicy, StaticType, Template, TemplateBody, Unknown,
};
use common::{id, shared, uid};
use std::sync::Arc;

fn annotations_of(pairs: &[(&str, &str)]) -> Annotations {
    Annotations::try_from_iter(pairs.iter().map(|(name, val)| {
        let annotation = Annotation {
            val: (*val).into(),
            loc: None,
        };
        (AnyId::from_normalized_str(name).unwrap(), annotation)
    }))
}

fn template(
    pairs: &[(&str, &str)],
    principal: PrincipalConstraint,
    action: ActionConstraint,
    resource: ResourceConstraint,
    clause: Option<Expr>,
) -> Template {
    Template::new(
        id("t"),
        None,
        annotations_of(pairs),
        Effect::Permit,
        principal,
        action,
        resource,
        clause,
    )
}

fn unconstrained(pairs: &[(&str, &str)], clause: Option<Expr>) -> Template {
    template(
        pairs,
        PrincipalConstraint::any(),
        ActionConstraint::any(),
        ResourceConstraint::any(),
        clause,
    )
}

fn is_eq(left: Expr, right: Expr) -> Option<Expr> {
    Some(Expr::is_eq(left, right))
}

fn slot(slot: SlotId) -> Expr {
    Expr::slot(slot)
}

fn ty(text: &str) -> Arc<EntityType> {
    shared(EntityType::from_normalized_str(text).unwrap())
}

#[test]
fn display_of_policies() {
    let (v, w) = (uid(r#"Action::"v""#), uid(r#"Action::"w""#));
    for (template, text) in [
        (
            unconstrained(&[], None),
            "permit(\n  principal,\n  action,\n  resource\n);",
        ),
        (
            template(
                &[],
                PrincipalConstraint::is_eq_slot(),
                ActionConstraint::is_in([v.clone(), w]),
                ResourceConstraint::is_in_slot(),
                is_eq(Expr::val(1), Expr::val(2)),
            ),
            "permit(\n  principal == ?principal,\n  action in [Action::\"v\",Action::\"w\"],\n  resource in ?resource\n) when {\n  1 == 2\n};",
        ),
        (
            template(
                &[("k", "1"), ("if", "x\"y")],
                PrincipalConstraint::is_in(shared(uid(r#"A::"g""#))),
                ActionConstraint::is_eq(v),
                ResourceConstraint::is_entity_type(ty("T")),
                None,
            ),
            "@if(\"x\\\"y\")\n@k(\"1\")\npermit(\n  principal in A::\"g\",\n  action == Action::\"v\",\n  resource is T\n);",
        ),
        (
            template(
                &[],
                PrincipalConstraint::any(),
                ActionConstraint::is_in_slot(),
                ResourceConstraint::any(),
                None,
            ),
            "permit(\n  principal,\n  action in ?action,\n  resource\n);",
        ),
        (
            unconstrained(&[("k", "é\t")], Some(Expr::val("é"))),
            "@k(\"é\\t\")\npermit(\n  principal,\n  action,\n  resource\n) when {\n  \"é\"\n};",
        ),
    ] {
        assert_eq!(template.to_string(), text);
        assert_eq!(TemplateBody::from(template.clone()).to_string(), text);
        if let Ok(policy) = StaticPolicy::try_from(template) {
            assert_eq!(policy.to_string(), text);
            assert_eq!(Policy::from(policy).to_string(), text);
        }
    }
    let link = |name: &str, text: &str| {
        let template = template(
            &[],
            PrincipalConstraint::is_eq_slot(),
            ActionConstraint::any(),
            ResourceConstraint::any(),
            None,
        );
        let template = shared(template.new_id(id(name)));
        let bound = SlotEnv::from([(SlotId::principal(), uid(text))]);
        Template::link(template, id("l"), bound)
            .expect("the slot is bound")
            .to_string()
    };
    assert_eq!(
        link("a\"b", r#"A::B::"it\'s""#),
        r#"Template Instance of a\"b, slots: [?principal -> A::B::"it\'s"]"#
    );
    assert_eq!(
        link("é", r#"A::"é""#),
        r#"Template Instance of é, slots: [?principal -> A::"é"]"#
    );
}

#[test]
fn conditions_combine_the_scope_and_the_clause() {
    let (p, a, r) = (SlotId::principal(), SlotId::action(), SlotId::resource());
    let typed = |clause: Option<Expr>| {
        template(
            &[],
            PrincipalConstraint::is_entity_type(ty("A")),
            ActionConstraint::any(),
            ResourceConstraint::is_entity_type(ty("B")),
            clause,
        )
    };
    let slotted = |clause: Option<Expr>| {
        template(
            &[],
            PrincipalConstraint::is_eq_slot(),
            ActionConstraint::is_in_slot(),
            ResourceConstraint::is_in_slot(),
            clause,
        )
    };
    for (template, text, slots) in [
        (unconstrained(&[], None), "true && (true && (true && true))", vec![]),
        (
            unconstrained(&[], Some(Expr::val(7))),
            "true && (true && (true && 7))",
            vec![],
        ),
        (
            typed(is_eq(Expr::val(1), Expr::val(2))),
            "(principal is A) && (true && ((resource is B) && (1 == 2)))",
            vec![],
        ),
        (
            slotted(None),
            "(principal == ?principal) && ((action in ?action) && ((resource in ?resource) && true))",
            vec![r, a, p],
        ),
        (
            slotted(is_eq(slot(p), slot(r))),
            "(principal == ?principal) && ((action in ?action) && ((resource in ?resource) && (?principal == ?resource)))",
            vec![r, p, r, a, p],
        ),
        (
            slotted(is_eq(slot(a), slot(p))),
            "(principal == ?principal) && ((action in ?action) && ((resource in ?resource) && (?action == ?principal)))",
            vec![p, a, r, a, p],
        ),
    ] {
        assert_eq!(template.condition().to_string(), text);
        assert_eq!(TemplateBody::from(template.clone()).condition(), template.condition());
        assert_eq!(template.slots().map(|slot| slot.id).collect::<Vec<_>>(), slots);
        assert_eq!(template.is_static(), slots.is_empty());
        if let Ok(policy) = StaticPolicy::try_from(template.clone()) {
            assert_eq!(Policy::from(policy).condition(), template.condition());
        }
    }
}

#[test]
fn annotations_are_found_by_key_and_shared() {
    let key = |text: &str| AnyId::from_normalized_str(text).unwrap();
    let one = unconstrained(&[("b", "2"), ("a", "1")], None);
    let policy = StaticPolicy::try_from(one.clone()).unwrap();
    let body = TemplateBody::from(one.clone());
    for (name, expected) in [("a", Some("1")), ("b", Some("2")), ("c", None)] {
        assert_eq!(one.annotation(&key(name)).map(AsRef::as_ref), expected);
        assert_eq!(body.annotation(&key(name)).map(AsRef::as_ref), expected);
        assert_eq!(policy.annotation(&key(name)).map(AsRef::as_ref), expected);
        assert_eq!(
            Policy::from(policy.clone()).annotation(&key(name)).map(AsRef::as_ref),
            expected
        );
    }
    let annotations: Vec<_> = one
        .annotations()
        .map(|(name, annotation)| (name.as_ref(), annotation.as_ref()))
        .collect();
    assert_eq!(annotations, [("a", "1"), ("b", "2")]);
    assert!(Arc::ptr_eq(one.annotations_arc(), one.clone().annotations_arc()));
    let rebuilt = Template::new_shared(
        id("t"),
        None,
        one.annotations_arc().clone(),
        Effect::Permit,
        PrincipalConstraint::any(),
        ActionConstraint::any(),
        ResourceConstraint::any(),
        None,
    );
    assert_eq!(rebuilt, one);
}

/// An unknown names an entity if it has a type and its name is a printed uid of that type. Each uid is returned once.
#[test]
fn unknown_entities_of_a_policy() {
    let typed = |name: &str, text: &str| {
        let ty = EntityType::from_normalized_str(text).unwrap();
        Expr::unknown(Unknown::new_with_type(name, StaticType::Entity { ty }))
    };
    let named = |unknowns: Vec<Expr>| {
        let policy = Policy::from(StaticPolicy::try_from(unconstrained(&[], Some(Expr::set(unknowns)))).unwrap());
        let mut uids: Vec<_> = policy.unknown_entities().iter().map(ToString::to_string).collect();
        uids.sort();
        uids
    };
    assert!(named(vec![]).is_empty());
    let untyped = Expr::unknown(Unknown::new_untyped(r#"A::"c""#));
    assert_eq!(
        named(vec![typed(r#"A::"a""#, "A"), typed(r#"A :: "b""#, "A"), untyped]),
        [r#"A::"a""#]
    );
    let repeated = vec![
        typed(r#"A::"a""#, "A"),
        typed(r#"A::"b""#, "B"),
        typed(r#"A::"a""#, "A"),
        typed(r#"A::"""#, "A"),
    ];
    assert_eq!(named(repeated), [r#"A::"""#, r#"A::"a""#, r#"A::"b""#]);
    let non_ascii = vec![
        typed(r#"A::"é""#, "A"),
        typed(r#"A::"it\'s""#, "A"),
        typed(r#"if::"a""#, "A"),
    ];
    assert_eq!(named(non_ascii), [r#"A::"it\'s""#, r#"A::"é""#]);
    assert!(
        named(vec![
            typed(r#"A::"\u{e9}""#, "A"),
            typed("alice", "A"),
            typed(r#"A::"a" "#, "A")
        ])
        .is_empty()
    );
}

#[test]
fn long_escapes_round_trip() {
    for eid in ["\u{10ffff}", "\u{e0001}", "\u{fffff}"] {
        let original = EntityUID::with_eid_and_type("A", eid).unwrap();
        let text = original.to_string();
        assert_eq!(text, format!("A::\"{}\"", eid.escape_unicode()));
        assert_eq!(EntityUID::from_normalized_str(&text).unwrap(), original);
    }
}
