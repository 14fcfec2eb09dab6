//! Source locations of policies. Copies, other ids, links and merges keep them, no comparison uses them, and errors
//! report them.
mod common;
#[path = "common/policies.rs"]
mod policies;

use cedar_store::ast::{
    ActionConstraint, Annotation, Annotations, AnyId, Effect, EntityReference, EntityUID, Expr, LinkingError, Name,
    Policy, PolicySet, PrincipalConstraint, PrincipalOrResourceConstraint, ResourceConstraint, SlotEnv, SlotId,
    StaticPolicy, Template, TemplateBody, TemplateValidationError, UnexpectedSlotError,
};
use cedar_store::parser::Loc;
use common::{id, shared, uid};
use policies::template_with;

fn at(start: usize) -> Option<Loc> {
    Some(Loc::new(
        start,
        start + 1,
        "permit(principal, action, resource);".into(),
    ))
}

fn start(loc: Option<&Loc>) -> Option<usize> {
    loc.map(|loc| loc.start)
}

/// Returns a uid with a location.
fn uid_at(text: &str, start: usize) -> EntityUID {
    let (ty, eid) = uid(text).components();
    EntityUID::from_components(ty, eid, at(start))
}

fn annotations() -> Annotations {
    let key = AnyId::from_normalized_str("k").unwrap();
    let annotation = Annotation {
        val: "v".into(),
        loc: at(4),
    };
    Annotations::try_from_iter([(key, annotation)])
}

fn slot_constraint(start: usize) -> PrincipalOrResourceConstraint {
    PrincipalOrResourceConstraint::Eq(EntityReference::Slot(at(start)))
}

/// Returns `t` with the location 1, an annotation at 4, the principal's slot at 3, the action's slot at 6, the
/// resource's slot at 5, and a clause.
fn template(clause: Option<Expr>) -> Template {
    Template::new(
        id("t"),
        at(1),
        annotations(),
        Effect::Permit,
        PrincipalConstraint::new(slot_constraint(3)),
        ActionConstraint::EqSlot(at(6)),
        ResourceConstraint::new(slot_constraint(5)),
        clause,
    )
}

fn principal_slot(start: usize) -> Expr {
    Expr::slot(SlotId::principal()).with_maybe_source_loc(at(start))
}

/// Returns the locations of the annotation, of the slot in a constraint, and of the template.
fn starts(template: &Template) -> [Option<usize>; 3] {
    let key = AnyId::from_normalized_str("k").unwrap();
    let annotation_start = template.annotation(&key).and_then(|annotation| annotation.loc.as_ref());
    let reference = match template.principal_constraint().as_inner() {
        PrincipalOrResourceConstraint::Eq(EntityReference::Slot(loc)) => start(loc.as_ref()),
        _ => None,
    };
    [start(template.loc()), start(annotation_start), reference]
}

#[test]
fn templates_keep_locations_in_copies_and_conversions() {
    let one = template(Some(principal_slot(7)));
    let expected = [Some(1), Some(4), Some(3)];
    let body = TemplateBody::from(one.clone());
    assert_eq!(start(body.loc()), Some(1));
    for other in [
        one.clone(),
        one.new_id(id("u")),
        Template::from_body(body.clone()),
        Template::from_body(body.new_id(id("u"))),
    ] {
        assert_eq!(starts(&other), expected);
        let slots: Vec<_> = other.slots().map(|slot| (slot.id, start(slot.loc.as_ref()))).collect();
        assert_eq!(
            slots,
            [
                (SlotId::principal(), Some(7)),
                (SlotId::resource(), Some(5)),
                (SlotId::action(), Some(6)),
                (SlotId::principal(), Some(3)),
            ]
        );
    }
    assert_eq!(one.new_id(id("u")).id(), &id("u"));
}

#[test]
fn constructors_keep_the_locations_of_shared_parts_and_clauses() {
    let shared_annotations = shared(annotations());
    let one = Template::new_shared(
        id("t"),
        at(1),
        shared_annotations.clone(),
        Effect::Permit,
        PrincipalConstraint::new(slot_constraint(3)),
        ActionConstraint::EqSlot(at(6)),
        ResourceConstraint::new(slot_constraint(5)),
        Some(shared(principal_slot(7))),
    );
    assert_eq!(starts(&one), [Some(1), Some(4), Some(3)]);
    let slots: Vec<_> = one.slots().map(|slot| start(slot.loc.as_ref())).collect();
    assert_eq!(slots, [Some(7), Some(5), Some(6), Some(3)]);
    let clause = || Expr::val(true).with_maybe_source_loc(at(8));
    let unannotated = Policy::from_when_clause(Effect::Forbid, clause(), id("p"), at(2));
    let annotated =
        Policy::from_when_clause_annos(Effect::Forbid, shared(clause()), id("p"), at(2), shared_annotations);
    for policy in [&unannotated, &annotated] {
        assert_eq!((policy.id(), policy.effect()), (&id("p"), Effect::Forbid));
        assert_eq!(
            (start(policy.loc()), start(policy.template().loc())),
            (Some(2), Some(2))
        );
        let clause = policy.non_scope_constraints().expect("it has a clause");
        assert_eq!(start(clause.source_loc()), Some(8));
    }
    assert_eq!(starts(annotated.template()), [Some(2), Some(4), None]);
    assert_eq!(starts(unannotated.template()), [Some(2), None, None]);
    assert_eq!(
        start(Policy::from_when_clause(Effect::Permit, clause(), id("p"), None).loc()),
        None
    );
}

#[test]
fn comparisons_ignore_locations() {
    let without_locations = || {
        Template::new(
            id("t"),
            None,
            annotations(),
            Effect::Permit,
            PrincipalConstraint::is_eq_slot(),
            ActionConstraint::is_eq_slot(),
            ResourceConstraint::is_eq_slot(),
            None,
        )
    };
    assert_eq!(template(None), without_locations());
    let other =
        |effect: Effect, principal: PrincipalConstraint, action: ActionConstraint, resource: ResourceConstraint| {
            Template::new(id("t"), None, annotations(), effect, principal, action, resource, None)
        };
    let (principal, action, resource) = (
        PrincipalConstraint::is_eq_slot,
        ActionConstraint::is_eq_slot,
        ResourceConstraint::is_eq_slot,
    );
    let all = [
        without_locations(),
        without_locations().new_id(id("u")),
        template(Some(principal_slot(7))),
        other(Effect::Forbid, principal(), action(), resource()),
        other(Effect::Permit, PrincipalConstraint::is_in_slot(), action(), resource()),
        other(Effect::Permit, principal(), ActionConstraint::is_in_slot(), resource()),
        other(Effect::Permit, principal(), ActionConstraint::is_in([]), resource()),
        other(Effect::Permit, principal(), action(), ResourceConstraint::is_in_slot()),
    ];
    for (n, one) in all.iter().enumerate() {
        for (m, two) in all.iter().enumerate() {
            assert_eq!(one == two, n == m, "{one} {two}");
            assert_eq!(
                TemplateBody::from(one.clone()) == TemplateBody::from(two.clone()),
                n == m
            );
        }
    }
    assert!(Effect::Permit < Effect::Forbid);
    assert_eq!(
        (Effect::Permit.to_string(), Effect::Forbid.to_string()),
        ("permit".into(), "forbid".into())
    );
}

fn bindings() -> SlotEnv {
    SlotEnv::from([
        (SlotId::principal(), uid_at(r#"A::"p""#, 12)),
        (SlotId::action(), uid_at(r#"N::Action::"é""#, 14)),
        (SlotId::resource(), uid_at(r#"A::"r""#, 13)),
    ])
}

fn filled_uid(constraint: &PrincipalOrResourceConstraint) -> (String, Option<usize>) {
    let euid = constraint.get_euid().expect("it is filled");
    (euid.to_string(), start(euid.loc()))
}

#[test]
fn links_have_the_locations_of_the_bound_uids() {
    let link = Template::link(shared(template(None)), id("l"), bindings()).expect("all slots are bound");
    for link in [link.clone(), link.new_id(id("l"))] {
        assert_eq!(start(link.loc()), Some(1));
        assert_eq!(
            filled_uid(link.principal_constraint().as_inner()),
            (r#"A::"p""#.into(), Some(12))
        );
        assert_eq!(
            filled_uid(link.resource_constraint().as_inner()),
            (r#"A::"r""#.into(), Some(13))
        );
        match link.action_constraint() {
            ActionConstraint::Eq(action) => {
                assert_eq!(
                    (action.to_string().as_str(), start(action.loc())),
                    (r#"N::Action::"é""#, Some(14))
                );
            }
            other => panic!("{other}"),
        }
        assert_eq!(
            link.to_string(),
            r#"Template Instance of t, slots: [?principal -> A::"p",?action -> N::Action::"é",?resource -> A::"r"]"#
        );
    }
    let with_new_template_id = link.clone().new_template_id(id("u")).expect("it is a link");
    assert_eq!(
        (with_new_template_id.template().id(), with_new_template_id.id()),
        (&id("u"), &id("l"))
    );
    let (link_template, name, values) = link.clone().into_components();
    assert_eq!((link_template.id(), name, values.len()), (&id("t"), Some(id("l")), 3));
    // equal if the template, the id and the bindings are equal, for any locations
    let unlocated = SlotEnv::from([
        (SlotId::resource(), uid(r#"A::"r""#)),
        (SlotId::action(), uid(r#"N::Action::"é""#)),
        (SlotId::principal(), uid(r#"A::"p""#)),
    ]);
    assert_eq!(
        link,
        Template::link(shared(template(None)), id("l"), unlocated.clone()).unwrap()
    );
    for (slot, text) in [
        (SlotId::principal(), r#"A::"x""#),
        (SlotId::action(), r#"Action::"é""#),
        (SlotId::resource(), r#"B::"r""#),
    ] {
        let mut values = unlocated.clone();
        values.insert(slot, uid(text));
        assert_ne!(link, Template::link(shared(template(None)), id("l"), values).unwrap());
    }
    assert_ne!(
        link,
        Template::link(shared(template(None)), id("m"), unlocated).unwrap()
    );
}

fn static_policy(effect: Effect, clause: Option<Expr>) -> Result<StaticPolicy, UnexpectedSlotError> {
    StaticPolicy::new(
        id("p"),
        at(9),
        annotations(),
        effect,
        PrincipalConstraint::any(),
        ActionConstraint::any(),
        ResourceConstraint::any(),
        clause,
    )
}

#[test]
fn static_policies_keep_locations() {
    let one = static_policy(Effect::Forbid, Some(Expr::val(1).with_maybe_source_loc(at(8)))).expect("no slot");
    for policy in [
        one.clone(),
        one.new_id(id("p")),
        StaticPolicy::try_from(Template::from_body(TemplateBody::from(one.clone()))).unwrap(),
    ] {
        assert_eq!(start(policy.loc()), Some(9));
        assert_eq!(
            start(policy.non_scope_constraints().and_then(Expr::source_loc)),
            Some(8)
        );
        assert_eq!(policy, one);
    }
    let policy = Policy::from(one.clone());
    assert_eq!(start(policy.loc()), Some(9));
    assert!(policy.clone().new_template_id(id("u")).is_none());
    // the new nodes of a condition have the location of the policy
    assert_eq!(start(policy.condition().source_loc()), Some(9));
    let renamed = policy.new_id(id("m"));
    assert_eq!((renamed.id(), renamed.template().id()), (&id("m"), &id("m")));
    let (link_template, name, values) = renamed.into_components();
    assert_eq!((link_template.id(), name, values.len()), (&id("m"), None, 0));
}

#[test]
fn errors_report_the_location_of_the_slot() {
    let found = |template: Template| match StaticPolicy::try_from(template) {
        Err(UnexpectedSlotError::FoundSlot(slot)) => (slot.id, start(slot.loc.as_ref())),
        Ok(policy) => panic!("{policy}"),
    };
    assert_eq!(found(template(Some(principal_slot(7)))), (SlotId::principal(), Some(7)));
    assert_eq!(found(template(None)), (SlotId::resource(), Some(5)));
    let clause = Expr::is_eq(
        Expr::slot(SlotId::principal()).with_maybe_source_loc(at(2)),
        Expr::slot(SlotId::action()).with_maybe_source_loc(at(8)),
    );
    match template(Some(clause)).try_validate() {
        Err(TemplateValidationError::SlotsInConditionClause(slot)) => {
            assert_eq!((slot.id, start(slot.loc.as_ref())), (SlotId::action(), Some(8)));
        }
        other => panic!("{other:?}"),
    }
    let mut values = bindings();
    values.insert(SlotId::action(), uid_at(r#"A::"x""#, 15));
    match Template::link(shared(template(None)), id("l"), values) {
        Err(LinkingError::NotAnAction { uid: reported_uid }) => {
            assert_eq!(
                (reported_uid.clone(), start(reported_uid.loc())),
                (uid(r#"A::"x""#), Some(15))
            );
        }
        other => panic!("{other:?}"),
    }
}

/// Returns a template without slots at a location.
fn template_at(name: &str, start: usize) -> Template {
    Template::new(
        id(name),
        at(start),
        Annotations::new(),
        Effect::Permit,
        PrincipalConstraint::any(),
        ActionConstraint::any(),
        ResourceConstraint::any(),
        None,
    )
}

/// A merge takes over the value of the other set for equal items: a static policy, a template, and a template with its
/// link.
#[test]
fn merge_uses_the_locations_of_the_other_set() {
    fn slotless_template(start: usize) -> Template {
        template_at("t", start)
    }
    fn set_at(kind: &str, start: usize) -> PolicySet {
        let mut set = PolicySet::new();
        match kind {
            "static" => set
                .add(Template::try_as_policy(shared(slotless_template(start))).unwrap())
                .unwrap(),
            "template" => set.add_template(slotless_template(start)).unwrap(),
            _ => set
                .add(Template::link(shared(slotless_template(start)), id("l"), SlotEnv::new()).unwrap())
                .unwrap(),
        }
        set
    }
    let starts = |set: &PolicySet| {
        [
            set.get_template_arc(&id("t"))
                .and_then(|template| start(template.loc())),
            start(set.get(&id("t")).and_then(Policy::loc)),
            start(set.get(&id("l")).and_then(Policy::loc)),
        ]
    };
    for (kind, present) in [
        ("static", [true, true, false]),
        ("template", [true, false, false]),
        ("link", [true, false, true]),
    ] {
        let (mut set, other) = (set_at(kind, 3), set_at(kind, 7));
        assert_eq!(starts(&set), present.map(|is| is.then_some(3)));
        assert!(set.merge_policyset(&other, false).expect("they are equal").is_empty());
        assert_eq!(starts(&set), present.map(|is| is.then_some(7)));
        assert_eq!(starts(&other), present.map(|is| is.then_some(7)));
    }
}

/// Each of several policies takes over the location of the policy with its id, for any orders of the two sets.
#[test]
fn merge_uses_the_location_of_the_policy_with_the_same_id() {
    fn set_of(ids: [&str; 3], first: usize) -> PolicySet {
        let mut set = PolicySet::new();
        for name in ids {
            let slotless_template = template_at(name, first + name.len());
            set.add(Template::try_as_policy(shared(slotless_template)).unwrap())
                .unwrap();
        }
        set
    }
    let mut set = set_of(["a", "bb", "ccc"], 0);
    let other = set_of(["ccc", "a", "bb"], 4);
    assert!(set.merge_policyset(&other, false).expect("they are equal").is_empty());
    for name in ["a", "bb", "ccc"] {
        assert_eq!(start(set.get(&id(name)).and_then(Policy::loc)), Some(4 + name.len()));
    }
}

/// Returns the start, the end and the text of a location.
fn span(loc: Option<&Loc>) -> Option<(usize, usize, String)> {
    loc.map(|loc| (loc.start, loc.end, loc.src.to_string()))
}

#[test]
fn parsed_uid_has_the_locations_of_its_text_and_its_type() {
    let text = r#"Photos::User::"é""#;
    let parsed = uid(text);
    assert_eq!(span(parsed.loc()), Some((0, text.len(), text.to_string())));
    assert_eq!(span(parsed.entity_type().loc()), Some((0, 12, text.to_string())));
}

#[test]
fn qualified_name_keeps_its_location() {
    let user = Name::from_normalized_str("User").unwrap();
    let photos = Name::from_normalized_str("Photos").unwrap();
    let qualified = user.qualify_with_name(Some(&photos));
    assert_eq!(qualified.to_string(), "Photos::User");
    assert_eq!(span(qualified.loc()), Some((0, 4, "User".to_string())));
}

/// Equal links of a template that both sets share: the bound uid and its type take over the locations of the other set,
/// for any kind of difference.
#[test]
fn merge_uses_the_location_of_a_bound_uid() {
    let text: std::sync::Arc<str> = r#"User::"x" in more"#.into();
    let locations = [
        None,
        Some(Loc::new(0, 9, text.clone())),
        Some(Loc::new(0, 8, text.clone())),
        Some(Loc::new(1, 9, text)),
        Some(Loc::new(0, 9, r#"User::"x" elsewhere"#.into())),
    ];
    let mut base = PolicySet::new();
    let principal = PrincipalConstraint::new(slot_constraint(3));
    let scope = (principal, ActionConstraint::any(), ResourceConstraint::any());
    base.add_template(template_with("t", Effect::Permit, scope, None))
        .unwrap();
    let user = uid(r#"User::"x""#);
    let linked = |location: &Option<Loc>, type_location: &Option<Loc>| {
        let (ty, eid) = user.clone().components();
        let mut values = SlotEnv::new();
        values.insert(
            SlotId::principal(),
            EntityUID::from_components(ty.with_loc(type_location.as_ref()), eid, location.clone()),
        );
        let mut set = base.clone();
        set.link(id("t"), id("l"), values).unwrap();
        set
    };
    for (here, there) in locations
        .iter()
        .flat_map(|here| locations.iter().map(move |there| (here, there)))
    {
        let mut set = linked(here, &None);
        assert!(set.merge_policyset(&linked(there, &None), false).unwrap().is_empty());
        let bound = &set.get(&id("l")).unwrap().env()[&SlotId::principal()];
        assert_eq!(span(bound.loc()), span(there.as_ref()));
        let mut set = linked(&None, here);
        assert!(set.merge_policyset(&linked(&None, there), false).unwrap().is_empty());
        let bound = &set.get(&id("l")).unwrap().env()[&SlotId::principal()];
        assert_eq!(span(bound.entity_type().loc()), span(there.as_ref()));
    }
}
