//! The test cases of the original for constraints, bodies, templates and linking, under the same names.
mod common;
#[path = "common/policies.rs"]
mod policies;

use cedar_store::ast::{
    ActionConstraint, Annotations, Effect, EntityIterator, EntityReference, EntityType, EntityUID, Expr, LinkingError,
    PolicyID, PrincipalConstraint, PrincipalOrResource, PrincipalOrResourceConstraint, ResourceConstraint, SlotEnv,
    SlotId, StaticPolicy, Template,
};
use common::{id, shared, uid, with_eid};
use std::sync::Arc;

/// Returns the constraints on a principal or a resource without types: any, and `==` and `in` with a uid and with a
/// slot.
fn all_por_constraints() -> [PrincipalOrResourceConstraint; 5] {
    let uid = shared(with_eid("test"));
    [
        PrincipalOrResourceConstraint::any(),
        PrincipalOrResourceConstraint::is_eq(uid.clone()),
        PrincipalOrResourceConstraint::is_eq_slot(),
        PrincipalOrResourceConstraint::is_in(uid),
        PrincipalOrResourceConstraint::is_in_slot(),
    ]
}

fn all_actions_constraints() -> [ActionConstraint; 4] {
    let action = uid(r#"Action::"test""#);
    [
        ActionConstraint::any(),
        ActionConstraint::is_eq(action.clone()),
        ActionConstraint::is_in([action.clone()]),
        ActionConstraint::is_in([action.clone(), action]),
    ]
}

/// Returns the 200 templates with these constraints and both effects.
fn all_templates() -> Vec<Template> {
    let mut all = Vec::new();
    for principal in all_por_constraints() {
        for action in all_actions_constraints() {
            for resource in all_por_constraints() {
                for (name, effect) in [("permit", Effect::Permit), ("forbid", Effect::Forbid)] {
                    all.push(Template::new(
                        id(name),
                        None,
                        Annotations::new(),
                        effect,
                        PrincipalConstraint::new(principal.clone()),
                        action.clone(),
                        ResourceConstraint::new(resource.clone()),
                        None,
                    ));
                }
            }
        }
    }
    assert_eq!(all.len(), 200);
    all
}

fn with_scope(name: &str, principal: PrincipalConstraint, resource: ResourceConstraint) -> Arc<Template> {
    shared(policies::template(name, Effect::Forbid, principal, resource))
}

#[test]
fn link_templates() {
    for template in all_templates() {
        template.check_invariant();
        let bindings: SlotEnv = template.slots().map(|slot| (slot.id, with_eid("eid"))).collect();
        let linked = Template::link(shared(template), id("id"), bindings).expect("all slots are bound");
        for constraint in [
            linked.principal_constraint().to_string(),
            linked.resource_constraint().to_string(),
        ] {
            assert!(!constraint.contains('?'), "{constraint}");
        }
    }
}

#[test]
fn test_template_rebuild() {
    for template in all_templates() {
        let rebuilt = Template::new(
            template.id().clone(),
            None,
            Annotations::new(),
            template.effect(),
            template.principal_constraint().clone(),
            template.action_constraint().clone(),
            template.resource_constraint().clone(),
            template.non_scope_constraints().cloned(),
        );
        assert_eq!(template, rebuilt);
    }
}

#[test]
fn test_static_policy_rebuild() {
    for template in all_templates() {
        let Ok(policy) = StaticPolicy::try_from(template.clone()) else {
            continue;
        };
        let rebuilt = StaticPolicy::new(
            policy.id().clone(),
            None,
            policy
                .annotations()
                .map(|(key, value)| (key.clone(), value.clone()))
                .collect(),
            policy.effect(),
            policy.principal_constraint().clone(),
            policy.action_constraint().clone(),
            policy.resource_constraint().clone(),
            policy.non_scope_constraints().cloned(),
        )
        .expect("no slot");
        assert_eq!(policy, rebuilt);
        let (back, linked) = Template::link_static_policy(rebuilt);
        assert!(linked.is_static());
        assert_eq!(&template, back.as_ref());
    }
}

/// Returns the lists of an arity error: the slots without a binding, and the bound ids that are not slots.
fn arity(template: &Arc<Template>, bindings: SlotEnv) -> (Vec<SlotId>, Vec<SlotId>) {
    match Template::link(template.clone(), id("iid"), bindings) {
        Err(LinkingError::ArityError {
            unbound_values,
            extra_values,
        }) => (unbound_values, extra_values),
        other => panic!("{other:?}"),
    }
}

#[test]
fn ir_binding_too_many() {
    let template = with_scope("tid", PrincipalConstraint::is_eq_slot(), ResourceConstraint::any());
    let extra = common::resource(with_eid("eid"));
    assert_eq!(
        arity(&template, extra),
        (vec![SlotId::principal()], vec![SlotId::resource()])
    );
}

#[test]
fn ir_binding_too_few() {
    let template = with_scope(
        "tid",
        PrincipalConstraint::is_eq_slot(),
        ResourceConstraint::is_in_slot(),
    );
    let none = SlotEnv::new();
    assert_eq!(
        arity(&template, none),
        (vec![SlotId::resource(), SlotId::principal()], vec![])
    );
    let one = common::principal(with_eid("eid"));
    assert_eq!(arity(&template, one), (vec![SlotId::resource()], vec![]));
}

#[test]
fn ir_binding() {
    let template = with_scope(
        "template",
        PrincipalConstraint::is_in_slot(),
        ResourceConstraint::is_eq_slot(),
    );
    let (principal, resource) = (with_eid("theprincipal"), with_eid("theresource"));
    let bindings = SlotEnv::from([
        (SlotId::principal(), principal.clone()),
        (SlotId::resource(), resource.clone()),
    ]);
    let linked = Template::link(template, id("linked"), bindings).expect("both slots are bound");
    assert_eq!(linked.id(), &id("linked"));
    assert_eq!(linked.env().get(&SlotId::principal()), Some(&principal));
    assert_eq!(linked.env().get(&SlotId::resource()), Some(&resource));
}

#[test]
fn isnt_template_implies_from_succeeds() {
    for template in all_templates()
        .into_iter()
        .filter(|template| template.slots().count() == 0)
    {
        assert!(StaticPolicy::try_from(template).is_ok());
    }
}

#[test]
fn is_template_implies_from_fails() {
    for template in all_templates()
        .into_iter()
        .filter(|template| template.slots().count() != 0)
    {
        assert!(StaticPolicy::try_from(template.clone()).is_err(), "{template}");
    }
}

#[test]
fn non_template_iso() {
    for template in all_templates() {
        if let Ok(policy) = StaticPolicy::try_from(template.clone()) {
            assert_eq!(&template, Template::link_static_policy(policy).0.as_ref());
        }
    }
}

#[test]
fn template_into_expr() {
    for template in all_templates() {
        if let Ok(policy) = StaticPolicy::try_from(template.clone()) {
            assert_eq!(policy.condition(), template.condition());
            assert_eq!(policy.effect(), template.effect());
        }
    }
}

#[test]
fn template_por_iter() {
    let uid = shared(with_eid("eid"));
    let ty = || shared(EntityType::from_normalized_str("T").unwrap());
    let euid_reference = || EntityReference::EUID(uid.clone());
    let slot = || EntityReference::Slot(None);
    for (constraint, has_uid) in [
        (PrincipalOrResourceConstraint::Any, false),
        (PrincipalOrResourceConstraint::In(euid_reference()), true),
        (PrincipalOrResourceConstraint::In(slot()), false),
        (PrincipalOrResourceConstraint::Eq(euid_reference()), true),
        (PrincipalOrResourceConstraint::Eq(slot()), false),
        (PrincipalOrResourceConstraint::IsIn(ty(), euid_reference()), true),
        (PrincipalOrResourceConstraint::Is(ty()), false),
        (PrincipalOrResourceConstraint::IsIn(ty(), slot()), false),
    ] {
        assert_eq!(constraint.get_euid(), has_uid.then_some(&uid), "{constraint:?}");
    }
}

#[test]
fn action_iter() {
    assert_eq!(ActionConstraint::Any.iter_euids().count(), 0);
    let one = ActionConstraint::Eq(shared(with_eid("test")));
    assert_eq!(one.iter_euids().collect::<Vec<_>>(), [&with_eid("test")]);
    let two = ActionConstraint::is_in([with_eid("test1"), with_eid("test2")]);
    assert_eq!(
        two.iter_euids().collect::<Vec<_>>(),
        [&with_eid("test2"), &with_eid("test1")]
    );
}

#[test]
fn test_iter_none() {
    assert_eq!(EntityIterator::None.next(), None);
}

#[test]
fn test_iter_once() {
    let uid = uid(r#"s::"eid""#);
    let mut one = EntityIterator::One(&uid);
    assert_eq!((one.next(), one.next()), (Some(&uid), None));
}

#[test]
fn test_iter_mult() {
    let (first, second) = (uid(r#"s::"eid1""#), uid(r#"s::"eid2""#));
    let mut iterator = EntityIterator::Bunch(vec![&first, &second]);
    assert_eq!(
        (iterator.next(), iterator.next(), iterator.next()),
        (Some(&second), Some(&first), None)
    );
}

#[test]
fn euid_into_expr() {
    let slot = EntityReference::Slot(None);
    assert_eq!(slot.into_expr(SlotId::principal()), Expr::slot(SlotId::principal()));
    let euid_reference = EntityReference::euid(shared(with_eid("eid")));
    assert_eq!(
        euid_reference.into_expr(SlotId::principal()),
        Expr::val(with_eid("eid"))
    );
}

#[test]
fn por_constraint_display() {
    let slot = PrincipalOrResourceConstraint::Eq(EntityReference::Slot(None));
    assert_eq!(slot.display(PrincipalOrResource::Principal), "principal == ?principal");
    let euid_reference = PrincipalOrResourceConstraint::Eq(EntityReference::euid(shared(with_eid("test"))));
    assert_eq!(
        euid_reference.display(PrincipalOrResource::Principal),
        r#"principal == test_entity_type::"test""#
    );
}

/// The original parses a policy with several clauses. This test builds the clause, and expects the same text.
#[test]
fn policy_to_expr() {
    let is = |left: i64, right: i64| Expr::is_eq(Expr::val(left), Expr::val(right));
    let clause = Expr::and(
        is(1, 2),
        Expr::and(Expr::not(is(2, 1)), Expr::and(is(3, 4), Expr::not(is(4, 3)))),
    );
    let ty = |text: &str| shared(EntityType::from_normalized_str(text).unwrap());
    let policy = StaticPolicy::new(
        id("id"),
        None,
        Annotations::new(),
        Effect::Permit,
        PrincipalConstraint::is_entity_type(ty("A")),
        ActionConstraint::any(),
        ResourceConstraint::is_entity_type(ty("B")),
        Some(clause),
    )
    .expect("no slot");
    assert_eq!(
        policy.condition().to_string(),
        "(principal is A) && (true && ((resource is B) && ((1 == 2) && ((!(2 == 1)) && ((3 == 4) && (!(4 == 3)))))))"
    );
}

/// A template with slots cannot become a static policy. The error names a slot of the scope or of the clause.
#[test]
fn unexpected_templates() {
    use cedar_store::ast::UnexpectedSlotError;
    let found = |principal: PrincipalConstraint, clause: Option<Expr>| {
        let result = StaticPolicy::new(
            id("id"),
            None,
            Annotations::new(),
            Effect::Permit,
            principal,
            ActionConstraint::any(),
            ResourceConstraint::any(),
            clause,
        );
        match result {
            Err(UnexpectedSlotError::FoundSlot(slot)) => slot.id,
            Ok(policy) => panic!("{policy}"),
        }
    };
    assert_eq!(found(PrincipalConstraint::is_eq_slot(), None), SlotId::principal());
    let clause = Expr::is_eq(Expr::slot(SlotId::resource()), Expr::val(3));
    assert_eq!(
        found(PrincipalConstraint::is_eq_slot(), Some(clause.clone())),
        SlotId::resource()
    );
    assert_eq!(found(PrincipalConstraint::any(), Some(clause)), SlotId::resource());
}

mod template_validate_test {
    use super::*;
    use cedar_store::ast::TemplateValidationError;

    fn make_template(action: ActionConstraint, clause: Option<Expr>) -> Template {
        Template::new(
            PolicyID::from_string("test"),
            None,
            Annotations::new(),
            Effect::Permit,
            PrincipalConstraint::any(),
            action,
            ResourceConstraint::any(),
            clause,
        )
    }

    fn action_euid() -> Arc<EntityUID> {
        shared(uid(r#"Action::"view""#))
    }

    fn non_action_euid() -> Arc<EntityUID> {
        shared(uid(r#"User::"alice""#))
    }

    #[test]
    fn valid_template_accepted() {
        assert!(
            make_template(ActionConstraint::Eq(action_euid()), None)
                .try_validate()
                .is_ok()
        );
    }

    #[test]
    fn invalid_action_eq_rejected() {
        match make_template(ActionConstraint::Eq(non_action_euid()), None).try_validate() {
            Err(TemplateValidationError::InvalidActionType(uids)) => {
                assert_eq!((uids.head, uids.tail), (non_action_euid(), vec![]));
            }
            other => panic!("{other:?}"),
        }
    }

    #[test]
    fn invalid_action_in_rejected() {
        let constraint = ActionConstraint::In(vec![action_euid(), non_action_euid()]);
        match make_template(constraint, None).try_validate() {
            Err(TemplateValidationError::InvalidActionType(uids)) => {
                assert_eq!((uids.head, uids.tail), (non_action_euid(), vec![]));
            }
            other => panic!("{other:?}"),
        }
    }

    #[test]
    fn slot_in_condition_rejected() {
        let template = make_template(
            ActionConstraint::Eq(action_euid()),
            Some(Expr::slot(SlotId::principal())),
        );
        match template.try_validate() {
            Err(TemplateValidationError::SlotsInConditionClause(slot)) => assert_eq!(slot.id, SlotId::principal()),
            other => panic!("{other:?}"),
        }
    }
}
