//! The test cases of the original for policy sets, under the same names. Where the original parses a policy, this test
//! builds it.
mod common;
#[path = "common/policies.rs"]
mod policies;

use cedar_store::ast::{
    ActionConstraint, Annotations, Effect, Expr, LinkingError, Policy, PolicyID, PolicySet, PolicySetError,
    PrincipalConstraint, ResourceConstraint, SlotEnv, SlotId, StaticPolicy, Template,
};
use common::{id, principal, resource, shared, uid, with_eid};
use policies::{permit, principal_template, resource_template};

fn bool_clause(value: bool) -> Option<Expr> {
    Some(Expr::val(value))
}

fn occupied(result: Result<(), PolicySetError>) -> PolicyID {
    match result {
        Err(PolicySetError::Occupied { id }) => id,
        other => panic!("{other:?}"),
    }
}

fn set_of(policies: impl IntoIterator<Item = StaticPolicy>) -> PolicySet {
    let mut set = PolicySet::new();
    for policy in policies {
        set.add_static(policy).expect("the id is not bound");
    }
    set
}

#[test]
fn link_conflicts() {
    let mut set = set_of([permit("id", None)]);
    set.add_template(principal_template("t")).unwrap();
    match set.link(id("t"), id("id"), principal(uid(r#"Test::"test""#))) {
        Err(LinkingError::PolicyIdConflict { id: reported }) => assert_eq!(reported, id("id")),
        other => panic!("{other:?}"),
    }
}

#[test]
fn policyset_add() {
    let mut set = PolicySet::new();
    set.add(permit("id", None).into()).expect("the id is not bound");
    let template = shared(principal_template("t"));
    let link = |name: &str, eid: &str| {
        Template::link(template.clone(), id(name), principal(uid(eid))).expect("the slot is bound")
    };
    set.add(link("link", r#"Test::"test1""#))
        .expect("its template is added with it");
    assert!(set.get_template_arc(&id("t")).is_some());
    assert_eq!(occupied(set.add(link("link", r#"Test::"test2""#))), id("link"));
    set.add(link("link2", r#"Test::"test2""#))
        .expect("its template is present");
    let other = shared(resource_template("t"));
    let linked = Template::link(other, id("unique3"), resource(uid(r#"Test::"test3""#))).unwrap();
    assert_eq!(occupied(set.add(linked)), id("t"));
}

#[test]
fn policy_set_singleton_static() {
    let policy: Policy = permit("id", None).into();
    let mut added = PolicySet::new();
    added.add(policy.clone()).unwrap();
    assert_eq!(PolicySet::singleton(policy), added);
}

#[test]
fn policy_set_singleton_link() {
    let policy = Template::link(
        shared(principal_template("t")),
        id("link"),
        principal(uid(r#"Test::"test1""#)),
    )
    .unwrap();
    let mut added = PolicySet::new();
    added.add(policy.clone()).unwrap();
    assert_eq!(PolicySet::singleton(policy), added);
}

#[test]
fn policy_merge_no_conflicts() {
    let mut one = set_of([permit("policy0", None), permit("policy1", bool_clause(false))]);
    let other = set_of([permit("policy0", None), permit("policy2", bool_clause(true))]);
    assert!(
        one.merge_policyset(&other, false)
            .expect("equal policies do not conflict")
            .is_empty()
    );
    let names: Vec<_> = one.policies().map(Policy::id).collect();
    assert_eq!(names, [&id("policy0"), &id("policy1"), &id("policy2")]);
}

#[test]
fn policy_merge_with_conflicts() {
    let [shared_policy, own_policy] = [permit("policy0", None), permit("policy1", bool_clause(false))];
    let [other_policy, new_policy] = [permit("policy1", None), permit("policy2", bool_clause(true))];
    let mut one = set_of([shared_policy.clone(), own_policy.clone()]);
    let other = set_of([other_policy.clone(), new_policy.clone()]);
    let before = one.clone();
    match one.merge_policyset(&other, false) {
        Err(PolicySetError::Occupied { id: reported }) => assert_eq!(reported, id("policy1")),
        other => panic!("{other:?}"),
    }
    assert_eq!(one, before);
    let renaming = one.merge_policyset(&other, true).expect("conflicting ids are renamed");
    let new_id = renaming
        .get(&id("policy1"))
        .expect("the conflicting id was renamed")
        .clone();
    assert_eq!(renaming.keys().len(), 1);
    assert_eq!(new_id, id("policy3"));
    for (name, policy) in [
        (id("policy0"), Policy::from(shared_policy)),
        (id("policy1"), Policy::from(own_policy)),
        (new_id.clone(), Policy::from(other_policy).new_id(new_id)),
        (id("policy2"), Policy::from(new_policy)),
    ] {
        assert_eq!(one.get(&name), Some(&policy));
    }
}

#[test]
fn policy_conflicts() {
    let mut set = set_of([permit("id", None)]);
    assert_eq!(occupied(set.add_static(permit("id", bool_clause(false)))), id("id"));
}

#[test]
fn template_filtering() {
    let mut set = PolicySet::new();
    set.add_template(principal_template("template")).unwrap();
    set.add_static(permit("static", None)).unwrap();
    let counts = |set: &PolicySet| {
        (
            set.all_templates().count(),
            set.templates().count(),
            set.static_policies().count(),
            set.policies().count(),
        )
    };
    assert_eq!(counts(&set), (2, 1, 1, 1));
    set.link(id("template"), id("id"), principal(with_eid("eid")))
        .expect("the slot is bound");
    assert_eq!(counts(&set), (2, 1, 1, 2));
}

#[test]
fn linking_missing_template() {
    let mut set = PolicySet::new();
    match set.link(id("template"), id("link"), SlotEnv::new()) {
        Err(LinkingError::NoSuchTemplate { id: reported }) => assert_eq!(reported, id("template")),
        other => panic!("{other:?}"),
    }
    let slotless = policies::template(
        "template",
        Effect::Permit,
        PrincipalConstraint::any(),
        ResourceConstraint::any(),
    );
    set.add_template(slotless).unwrap();
    assert!(set.link(id("template"), id("link"), SlotEnv::new()).is_ok());
}

#[test]
fn linkinv_valid_link() {
    let mut set = PolicySet::new();
    let template = policies::template(
        "template",
        Effect::Permit,
        PrincipalConstraint::is_eq_slot(),
        ResourceConstraint::is_in_slot(),
    );
    set.add_template(template).unwrap();
    let bindings = SlotEnv::from([
        (SlotId::principal(), with_eid("p")),
        (SlotId::resource(), with_eid("a")),
    ]);
    set.link(id("template"), id("link"), bindings)
        .expect("both slots are bound");
    let all: Vec<_> = set.policies().collect();
    assert_eq!(
        (all.len(), all[0].id(), all[0].template().id()),
        (1, &id("link"), &id("template"))
    );
}

#[test]
fn linking_empty_set() {
    assert_eq!(PolicySet::new().policies().count(), 0);
}

#[test]
fn linking_raw_policy() {
    let policy = StaticPolicy::new(
        id("id"),
        None,
        Annotations::new(),
        Effect::Forbid,
        PrincipalConstraint::any(),
        ActionConstraint::any(),
        ResourceConstraint::any(),
        None,
    )
    .unwrap();
    let set = set_of([policy]);
    let only = set.policies().next().expect("one policy");
    assert_eq!((only.id(), only.effect()), (&id("id"), Effect::Forbid));
    assert!(only.env().is_empty());
}

#[test]
fn link_slotmap() {
    let mut set = PolicySet::new();
    set.add_template(principal_template("template")).unwrap();
    set.link(id("template"), id("link"), principal(with_eid("eid")))
        .expect("the slot is bound");
    let link = set.get(&id("link")).expect("it is present");
    assert_eq!((link.id(), link.template().id()), (&id("link"), &id("template")));
    assert_eq!(link.env().get(&SlotId::principal()), Some(&with_eid("eid")));
}

#[test]
fn policy_sets() {
    let mut set = PolicySet::new();
    assert!(set.is_empty());
    let slotless = || {
        policies::template(
            "template",
            Effect::Permit,
            PrincipalConstraint::any(),
            ResourceConstraint::any(),
        )
    };
    assert!(set.add_static(permit("id1", None)).is_ok());
    assert!(set.add_static(permit("id1", None)).is_err());
    assert!(set.add_template(slotless()).is_ok());
    assert!(set.add_template(slotless()).is_err());
    assert!(!set.is_empty());
    let jane = PrincipalConstraint::is_eq(shared(with_eid("jane")));
    let second = StaticPolicy::try_from(policies::template(
        "id2",
        Effect::Forbid,
        jane,
        ResourceConstraint::any(),
    ));
    assert!(set.add_static(second.expect("no slot")).is_ok());
    assert!(set.add_template(principal_template("template2")).is_ok());
    set.link(id("template2"), id("link"), principal(with_eid("example")))
        .expect("the slot is bound");

    for name in ["id1", "id2", "link"] {
        assert_eq!(set.get(&id(name)).map(Policy::id), Some(&id(name)));
    }
    assert_eq!(
        set.get(&id("link")).map(|link| link.template().id()),
        Some(&id("template2"))
    );
    for name in ["id1", "id2", "template", "template2"] {
        assert_eq!(
            set.get_template_arc(&id(name)).map(|template| template.id().clone()),
            Some(id(name))
        );
    }
    for name in ["template", "template2"] {
        assert!(set.get(&id(name)).is_none());
    }
    assert_eq!((set.policies().count(), set.all_templates().count()), (3, 4));
}

#[test]
fn policy_set_insertion_order() {
    let names: Vec<_> = (1..=4).map(|number| id(&format!("id{number}"))).collect();
    let mut set = PolicySet::new();
    for name in &names {
        set.add(permit(name.as_ref(), None).into())
            .expect("the id is not bound");
    }
    let reported: Vec<_> = set.into_policies().map(|policy| policy.id().clone()).collect();
    assert_eq!(reported, names);
}

mod policy_set_validate_test {
    use super::*;
    use cedar_store::ast::PolicySetValidationError;

    fn on_action(name: &str, action: &str, clause: Option<Expr>) -> Template {
        Template::new(
            id(name),
            None,
            Annotations::new(),
            Effect::Permit,
            PrincipalConstraint::any(),
            ActionConstraint::Eq(shared(uid(action))),
            ResourceConstraint::any(),
            clause,
        )
    }

    fn valid_template(name: &str) -> Template {
        on_action(name, r#"Action::"view""#, None)
    }

    fn make_policy_set(templates: impl IntoIterator<Item = Template>) -> PolicySet {
        let mut set = PolicySet::new();
        for template in templates {
            set.add_template(template).expect("the id is not bound");
        }
        set
    }

    fn invalid_id(set: PolicySet) -> PolicyID {
        match set.try_validate() {
            Err(PolicySetValidationError::InvalidTemplate { id, .. }) => id,
            other => panic!("{other:?}"),
        }
    }

    #[test]
    fn valid_policy_set_accepted() {
        assert!(
            make_policy_set([valid_template("p1"), valid_template("p2")])
                .try_validate()
                .is_ok()
        );
    }

    #[test]
    fn invalid_template_rejected() {
        let bad = on_action("bad", r#"User::"alice""#, None);
        assert_eq!(invalid_id(make_policy_set([valid_template("p1"), bad])), id("bad"));
    }

    #[test]
    fn slot_in_condition_rejected() {
        let slotty = on_action("slotty", r#"Action::"view""#, Some(Expr::slot(SlotId::principal())));
        assert_eq!(invalid_id(make_policy_set([slotty])), id("slotty"));
    }

    #[test]
    fn link_with_no_slots_rejected() {
        let mut set = make_policy_set([valid_template("no_slots")]);
        set.link(id("no_slots"), id("link1"), SlotEnv::new()).unwrap();
        match set.try_validate() {
            Err(PolicySetValidationError::LinkToSlotlessTemplate { link_id, template_id }) => {
                assert_eq!((link_id, template_id), (id("link1"), id("no_slots")));
            }
            other => panic!("{other:?}"),
        }
    }
}
