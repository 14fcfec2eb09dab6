//! Tests of queries of a policy set: calls that query the library, and calls that return cached references. Also tests
//! of each error, and of queries while the set changes.
mod random;
mod short;
use cedar_store_proved::ast::{
    AnyId, Effect, EntityUID, LinkingError, ParseErrors, PolicySet, PolicySetError,
    PolicySetGetLinksError, PolicySetPolicyRemovalError, PolicySetTemplateRemovalError,
    PolicySetUnlinkError, SlotEnv, SlotId,
};
use cedar_store_proved::{Bound, Error, Reason, Slots};
use short::*;

const SPECS: [&str; 6] = [
    "permit s",
    "template t par",
    "template u -",
    "link t l par",
    "link u m -",
    "link t n par",
];

// Calls that take an id, with their names.
type Calls<'a> = [(&'a str, &'a dyn Fn(&str) -> Result<(), Error>); 9];

#[test]
fn queries_of_the_wrong_kind_are_errors() {
    let policy_set = set(&SPECS);
    let calls: Calls = [
        ("stulmn", &|id| policy_set.effect(id).map(drop)),
        ("stulmn", &|id| policy_set.annotation(id, "k").map(drop)),
        ("stulmn", &|id| policy_set.annotations(id).map(drop)),
        ("stu", &|id| policy_set.slots(id).map(drop)),
        ("stu", &|id| policy_set.linked(id).map(drop)),
        ("stu", &|id| policy_set.template_text(id).map(drop)),
        ("slmn", &|id| policy_set.env(id).map(drop)),
        ("slmn", &|id| policy_set.template_id(id).map(drop)),
        ("slmn", &|id| policy_set.policy_text(id).map(drop)),
    ];
    for (place, (bound_ids, call)) in calls.iter().enumerate() {
        for id in ["s", "t", "u", "l", "m", "n", "x", "", "é"] {
            match call(id) {
                Ok(()) => assert!(!id.is_empty() && bound_ids.contains(id), "{place} {id}"),
                Err(error) => {
                    assert!(id.is_empty() || !bound_ids.contains(id), "{place} {id}");
                    assert_error::<(), _>(Err(error), Reason::NoBody, "no body");
                }
            }
        }
    }
    for key in ["", "1", "a b", "é", "a::b"] {
        assert_error(
            policy_set.annotation("s", key),
            Reason::NotAName,
            "not a name",
        );
        assert_eq!(
            AnyId::from_normalized_str(key).unwrap_err(),
            ParseErrors::InvalidName
        );
    }
    for key in ["a", "_", "if", "A1", "__cedar"] {
        assert_eq!(policy_set.annotation("s", key).unwrap(), None);
        assert_eq!(AnyId::from_normalized_str(key).unwrap().as_ref(), key);
    }
}

#[test]
fn results_of_each_query() {
    let policy_set = set(&SPECS);
    let bound = |id| policy_set.bound(id).unwrap();
    assert_eq!(
        (bound("s"), bound("t")),
        (Some(Bound::Static), Some(Bound::Template))
    );
    assert_eq!((bound("l"), bound("x")), (Some(Bound::Link), None));
    assert_eq!(policy_set.slots("t").unwrap(), Slots::all());
    assert_eq!(
        (
            policy_set.slots("u").unwrap(),
            policy_set.slots("s").unwrap()
        ),
        (Slots::none(), Slots::none())
    );
    assert_eq!(policy_set.effect("l").unwrap(), Effect::Permit);
    assert_eq!(policy_set.env("l").unwrap(), bindings_of("par"));
    assert!(policy_set.env("s").unwrap().is_empty() && policy_set.env("m").unwrap().is_empty());
    assert_eq!(
        (
            policy_set.template_id("l").unwrap(),
            policy_set.template_id("s").unwrap()
        ),
        ("t".into(), "s".into())
    );
    assert_eq!(policy_set.linked("t").unwrap(), ["l", "n"]);
    assert_eq!(
        (
            policy_set.linked("u").unwrap(),
            policy_set.linked("s").unwrap()
        ),
        (vec!["m".into()], vec!["s".into()])
    );
    assert!(policy_set.annotations("s").unwrap().is_empty());
    let scope = "permit(\n  principal,\n  action,\n  resource\n);";
    assert_eq!(
        (
            policy_set.policy_text("s").unwrap(),
            policy_set.template_text("s").unwrap()
        ),
        (scope.into(), scope.into())
    );
    let link = "Template Instance of t, slots: [?principal -> A::\"x\",?action -> Action::\"x\",?resource -> A::\"y\"]";
    assert_eq!(policy_set.policy_text("l").unwrap(), link);
    let text = policy_set.to_string();
    assert!(
        text.starts_with(&format!("Templates:\n{scope}\n")) && text.ends_with(link),
        "{text}"
    );
}

// Asserts that the cached references are equal to the results of the calls that query the library.
fn check_cache(policy_set: &PolicySet) {
    let (bodies, policies) = (
        policy_set.body_ids().unwrap(),
        policy_set.policy_ids().unwrap(),
    );
    assert_eq!(
        ids(policy_set),
        (bodies.join(" "), policies.join(" ")),
        "the cached ids"
    );
    assert_eq!(policy_set.is_empty(), bodies.is_empty());
    for id in &bodies {
        let body = policy_set.get_template(&short::id(id)).unwrap();
        assert_eq!(body.effect(), policy_set.effect(id).unwrap());
        assert_eq!(body.to_string(), policy_set.template_text(id).unwrap());
        let slots = policy_set.slots(id).unwrap();
        let has = |slot| body.slots().any(|used| used.id == slot);
        assert_eq!(has(SlotId::principal()), slots.principal);
        assert_eq!(
            (has(SlotId::action()), has(SlotId::resource())),
            (slots.action, slots.resource)
        );
        assert_eq!(body.is_static(), slots == Slots::none());
        let linked = policy_set.get_linked_policies(&short::id(id)).unwrap();
        assert!(linked
            .map(|id| id.as_ref())
            .eq(&policy_set.linked(id).unwrap()));
        let is_static = policy_set.bound(id).unwrap() == Some(Bound::Static);
        assert_eq!(policy_set.get(&short::id(id)).is_some(), is_static);
    }
    for id in &policies {
        let policy = policy_set.get(&short::id(id)).unwrap();
        assert_eq!(policy.env(), &policy_set.env(id).unwrap());
        assert_eq!(policy.to_string(), policy_set.policy_text(id).unwrap());
        assert_eq!(
            policy.template().id().as_ref(),
            policy_set.template_id(id).unwrap()
        );
        assert_eq!(
            policy.is_static(),
            policy_set.bound(id).unwrap() == Some(Bound::Static)
        );
        assert_eq!(
            Some(policy.template()),
            policy_set.get_template(policy.template().id())
        );
        assert!(policy.annotations().next().is_none() && policy.annotations_arc().is_empty());
        let parts = policy.clone().into_components();
        assert_eq!(parts.1.is_none(), policy.is_static());
    }
    assert!(policy_set.get(&id("no")).is_none() && policy_set.get_template(&id("no")).is_none());
    let error = policy_set.get_linked_policies(&id("no")).unwrap_err();
    assert_eq!(error, PolicySetGetLinksError::MissingTemplate(id("no")));
}

#[test]
fn cached_references_follow_each_edit() {
    let mut policy_set = PolicySet::new();
    check_cache(&policy_set);
    for spec in SPECS {
        add_item(&mut policy_set, spec).unwrap();
        check_cache(&policy_set);
    }
    assert!(add_item(&mut policy_set, "permit s").is_err());
    check_cache(&policy_set);
    let before = policy_set.get(&id("l")).unwrap().clone();
    assert_eq!(policy_set.unlink(&id("l")).unwrap(), before);
    check_cache(&policy_set);
    let link = policy_set.link("t", "l", bindings_of("par")).unwrap();
    assert_eq!(*link, before);
    let removed = policy_set.remove_static(&id("s")).unwrap();
    assert!(removed.is_static() && removed.id() == &id("s"));
    check_cache(&policy_set);
    policy_set.unlink(&id("m")).unwrap();
    let template = policy_set.remove_template(&id("u")).unwrap();
    assert_eq!(
        (template.id(), template.effect()),
        (&id("u"), Effect::Permit)
    );
    check_cache(&policy_set);
    let other = set(&["forbid t", "template v r", "link v w r"]);
    let renaming = policy_set.merge_policyset(&other, true).unwrap();
    assert!((&renaming).into_iter().eq([(&id("t"), &id("policy0"))]) && renaming.len() == 1);
    assert_eq!(renaming.get(&id("u")), None);
    check_cache(&policy_set);
    let copy = policy_set.clone();
    check_cache(&copy);
    assert_eq!(copy.into_policies().count(), policy_set.policies().count());
}

#[test]
fn cached_references_follow_random_edits() {
    let dice = &mut random::Dice::new(5);
    let (mut policy_set, mut most) = (PolicySet::new(), 0);
    for round in 0..6000 {
        let name = format!("p{}", dice.number(120));
        let template = id(["t", "u", "v"][dice.number(3)]);
        match dice.number(if round % 1500 < 700 { 8 } else { 12 }) {
            0 => drop(policy_set.bind_static(&name, Effect::Forbid)),
            1 => drop(policy_set.bind_template(&template, Effect::Permit, Slots::principal())),
            2..=6 => drop(policy_set.link(&template, &name, bindings_of("p"))),
            7 => {
                let other = set(&["template w r", "link w t r", "permit p3"]);
                if dice.number(40) == 0 {
                    policy_set.merge_policyset(&other, true).unwrap();
                }
            }
            8 => drop(policy_set.remove_static(&id(&name))),
            9 => drop(policy_set.remove_template(&template)),
            _ => drop(policy_set.unlink(&id(&name))),
        }
        most = most.max(policy_set.policies().count());
        if round % 50 == 0 {
            check_cache(&policy_set);
        }
        let copy = policy_set.clone();
        assert!(copy.policies().eq(policy_set.policies()) && copy == policy_set);
    }
    check_cache(&policy_set);
    assert!(most > 60, "{most}");
}

#[test]
fn removal_errors_name_the_kind() {
    let mut policy_set = set(&SPECS);
    let before = policy_set.clone();
    use PolicySetPolicyRemovalError as S;
    use PolicySetTemplateRemovalError as T;
    use PolicySetUnlinkError as U;
    assert_eq!(
        policy_set.unlink(&id("x")).unwrap_err(),
        U::UnlinkingError(id("x"))
    );
    for name in ["s", "t"] {
        assert_eq!(
            policy_set.unlink(&id(name)).unwrap_err(),
            U::NotLinkError(id(name))
        );
    }
    for name in ["x", "t"] {
        let error = policy_set.remove_static(&id(name)).unwrap_err();
        assert_eq!(error, S::RemovePolicyNoLinkError(id(name)));
    }
    let error = policy_set.remove_static(&id("l")).unwrap_err();
    assert_eq!(error, S::RemovePolicyNoTemplateError(id("l")));
    let error = policy_set.remove_template(&id("x")).unwrap_err();
    assert_eq!(error, T::RemovePolicyNoTemplateError(id("x")));
    let error = policy_set.remove_template(&id("t")).unwrap_err();
    assert_eq!(error, T::RemoveTemplateWithLinksError(id("t")));
    for name in ["s", "l"] {
        let error = policy_set.remove_template(&id(name)).unwrap_err();
        assert_eq!(error, T::NotTemplateError(id(name)));
    }
    let error = policy_set
        .bind_static("it's", Effect::Permit)
        .and_then(|()| policy_set.bind_static("it's", Effect::Permit));
    let error = error.unwrap_err();
    assert_eq!(error, PolicySetError::Occupied { id: id("it's") });
    assert_eq!(
        error.to_string(),
        "duplicate template or policy id `it\\'s`"
    );
    policy_set.remove_static(&id("it's")).unwrap();
    assert_eq!(policy_set, before);
}

// Converting an error to `Error` and back does not change it.
#[test]
fn errors_convert_to_one_type_and_back() {
    fn check_conversions<E: From<Error> + Into<Error> + Clone + PartialEq + std::fmt::Debug>(
        error: E,
    ) {
        let converted: Error = error.clone().into();
        assert_eq!(E::from(converted.clone()), error);
        assert_eq!(E::from(converted.clone()).into(), converted);
    }
    let mut policy_set = set(&SPECS);
    let mut link = |template: &str, id: &str, values: SlotEnv| {
        check_conversions(policy_set.link(template, id, values).map(drop).unwrap_err());
    };
    link("x", "y", SlotEnv::new());
    link("t", "y", SlotEnv::new());
    link("t", "y", bindings_of("p"));
    link("u", "y", bindings_of("par"));
    link("t", "s", bindings_of("par"));
    let mut not_action = bindings_of("pr");
    let uid: EntityUID = parse_uid("A::\"it\\'s\"");
    not_action.insert(SlotId::action(), uid.clone());
    link("t", "y", not_action.clone());
    let error = policy_set.link("t", "y", not_action).unwrap_err();
    assert_eq!(error, LinkingError::NotAnAction { uid });
    check_conversions(policy_set.unlink(&id("x")).unwrap_err());
    check_conversions(policy_set.unlink(&id("s")).unwrap_err());
    check_conversions(policy_set.remove_static(&id("x")).unwrap_err());
    check_conversions(policy_set.remove_static(&id("l")).unwrap_err());
    check_conversions(policy_set.remove_template(&id("x")).unwrap_err());
    check_conversions(policy_set.remove_template(&id("t")).unwrap_err());
    check_conversions(policy_set.remove_template(&id("s")).unwrap_err());
    check_conversions(policy_set.bind_static("s", Effect::Permit).unwrap_err());
    let build =
        |spec, mode| cedar_store_proved::Entities::from_entities(parse_entities(spec), mode);
    check_conversions(build("a b;a c", NOW).unwrap_err());
    check_conversions(build("a a", NOW).unwrap_err());
    check_conversions(build("a b;b c", ENFORCE).unwrap_err());
}
