//! The messages of all errors, also with non-ASCII and escaped characters, and the equality of errors.
#![allow(
    unreachable_patterns,
    reason = "the errors of `cedar-store-proved` have an additional variant"
)]
mod common;

use cedar_store::ast::{
    ActionConstraint, ActionTypesError, ExprValidationError, LinkingError, Name, PolicySetError,
    PolicySetGetLinksError, PolicySetPolicyRemovalError, PolicySetTemplateRemovalError, PolicySetUnlinkError,
    PolicySetValidationError, Slot, SlotId, TemplateValidationError, UnexpectedSlotError,
};
use cedar_store::entities::EntitiesError;
use common::{id, uid};

fn arity(unbound: &[SlotId], extra: &[SlotId]) -> LinkingError {
    LinkingError::ArityError {
        unbound_values: unbound.to_vec(),
        extra_values: extra.to_vec(),
    }
}

#[test]
fn linking_errors() {
    let (p, a, r) = (SlotId::principal(), SlotId::action(), SlotId::resource());
    let unbound = "the following slots were not provided as arguments: ";
    let extra = "he following slots were provided as arguments, but did not exist in the template: ";
    for (error, text) in [
        (arity(&[], &[]), unbound.to_string()),
        (arity(&[r, p], &[]), format!("{unbound}?resource,?principal")),
        (
            arity(&[r, p, r, p], &[]),
            format!("{unbound}?resource,?principal,?resource,?principal"),
        ),
        (arity(&[r, a, p], &[]), format!("{unbound}?resource,?action,?principal")),
        (arity(&[], &[p, a, r]), format!("t{extra}?principal,?action,?resource")),
        (arity(&[p], &[r]), format!("{unbound}?principal. T{extra}?resource")),
        (
            arity(&[a], &[p, r]),
            format!("{unbound}?action. T{extra}?principal,?resource"),
        ),
    ] {
        assert_eq!(error.to_string(), text);
        assert_eq!(error.clone(), error);
    }
    let not_an_action = |text: &str| LinkingError::NotAnAction { uid: uid(text) };
    assert_eq!(
        not_an_action(r#"N::T::"it\'s""#).to_string(),
        r#"the action slot is bound to `N::T::"it\'s"`, which is not an action"#
    );
    assert_eq!(
        not_an_action(r#"A::"é""#).to_string(),
        r#"the action slot is bound to `A::"é"`, which is not an action"#
    );
    let missing = |text: &str| LinkingError::NoSuchTemplate { id: id(text) };
    assert_eq!(missing("é\"").to_string(), r#"failed to find a template with id `é\"`"#);
    let occupied = |text: &str| LinkingError::PolicyIdConflict { id: id(text) };
    assert_eq!(
        occupied("a\"b").to_string(),
        r#"template-linked policy id `a\"b` conflicts with an existing policy id"#
    );
    let all = [
        arity(&[p], &[r]),
        arity(&[r], &[p]),
        arity(&[a], &[]),
        not_an_action(r#"A::"x""#),
        not_an_action(r#"A::"y""#),
        not_an_action(r#"B::"x""#),
        missing("t"),
        occupied("t"),
    ];
    for (n, one) in all.iter().enumerate() {
        for (m, other) in all.iter().enumerate() {
            assert_eq!(one == other, n == m, "{one} {other}");
        }
    }
}

#[test]
fn template_and_static_policy_errors() {
    let slot = |slot: SlotId| Slot { id: slot, loc: None };
    for (slot_id, name) in [
        (SlotId::principal(), "?principal"),
        (SlotId::action(), "?action"),
        (SlotId::resource(), "?resource"),
    ] {
        assert_eq!(
            UnexpectedSlotError::FoundSlot(slot(slot_id)).to_string(),
            format!("found slot `{name}` where slots are not allowed")
        );
        assert_eq!(
            TemplateValidationError::SlotsInConditionClause(slot(slot_id)).to_string(),
            format!("found slot `{name}` in a condition clause")
        );
        for other in [SlotId::principal(), SlotId::action(), SlotId::resource()] {
            let (first, second) = (slot(slot_id), slot(other));
            assert_eq!(
                UnexpectedSlotError::FoundSlot(first) == UnexpectedSlotError::FoundSlot(second),
                slot_id == other
            );
        }
    }
    assert_eq!(
        TemplateValidationError::SlotCacheMismatch.to_string(),
        "template slot cache is inconsistent with condition expression"
    );
    let name = Name::from_normalized_str("a::foo").unwrap();
    let unknown = ExprValidationError::UnknownFunction { name };
    assert_eq!(
        TemplateValidationError::InvalidExpression(unknown).to_string(),
        "`a::foo` is not a known function"
    );
    let action = ActionConstraint::is_in([
        uid(r#"User::"é""#),
        uid(r#"Action::"view""#),
        uid(r#"User::"it\'s""#),
        uid(r#"T::"\"""#),
    ]);
    let text = r#"the action constraint holds uids that are not actions: User::"é",User::"it\'s",T::"\"""#;
    match action.check_action_types() {
        Err(ActionTypesError::NotActions(uids)) => {
            assert_eq!(TemplateValidationError::InvalidActionType(uids).to_string(), text);
        }
        other => panic!("{other:?}"),
    }
    assert_eq!(action.check_action_types().unwrap_err().to_string(), text);
}

#[test]
fn policy_set_errors() {
    let id = || id("i\"j");
    let template = PolicySetTemplateRemovalError::RemovePolicyNoTemplateError;
    let links = PolicySetTemplateRemovalError::RemoveTemplateWithLinksError;
    for (message, text) in [
        (
            PolicySetError::Occupied { id: id() }.to_string(),
            r#"duplicate template or policy id `i\"j`"#,
        ),
        (
            PolicySetGetLinksError::MissingTemplate(id()).to_string(),
            r#"No template `i\"j`"#,
        ),
        (
            PolicySetUnlinkError::UnlinkingError(id()).to_string(),
            r#"unable to unlink policy id `i\"j` because it does not exist"#,
        ),
        (
            PolicySetUnlinkError::NotLinkError(id()).to_string(),
            r#"unable to remove link with policy id `i\"j` because it is a static policy"#,
        ),
        (
            template(id()).to_string(),
            r#"unable to remove template id `i\"j` from template list because it does not exist"#,
        ),
        (
            links(id()).to_string(),
            r#"unable to remove template id `i\"j` from template list because it still has active links"#,
        ),
        (
            PolicySetTemplateRemovalError::NotTemplateError(id()).to_string(),
            r#"unable to remove template with policy id `i\"j` because it is a static policy"#,
        ),
        (
            PolicySetPolicyRemovalError::RemovePolicyNoLinkError(id()).to_string(),
            r#"unable to remove static policy id `i\"j` from link list because it does not exist"#,
        ),
        (
            PolicySetPolicyRemovalError::RemovePolicyNoTemplateError(id()).to_string(),
            r#"unable to remove static policy id `i\"j` from template list because it does not exist"#,
        ),
        (
            PolicySetValidationError::LinkToSlotlessTemplate {
                link_id: common::id("l"),
                template_id: id(),
            }
            .to_string(),
            r#"link `l` references template `i\"j` which has no slots"#,
        ),
        (
            PolicySetValidationError::InvalidTemplate {
                id: id(),
                error: TemplateValidationError::SlotCacheMismatch,
            }
            .to_string(),
            r#"invalid template `i\"j`: template slot cache is inconsistent with condition expression"#,
        ),
    ] {
        assert_eq!(message, text);
    }
    assert_eq!(
        EntitiesError::Duplicate(uid(r#"A::"é""#)).to_string(),
        r#"duplicate entity `A::"é"`"#
    );
}
