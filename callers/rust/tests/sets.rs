//! Tests of policy sets: adding, linking and removing, and merging with and without renaming.
mod short;
use cedar_store_proved::ast::{Effect, PolicySet, PolicySetError, SlotId};
use cedar_store_proved::{Reason, Slots};
use short::*;

const MISSING: &str = "the following slots were not provided as arguments: ";
const EXTRA: &str =
    "he following slots were provided as arguments, but did not exist in the template: ";

#[test]
fn links_bind_exactly_the_slots() {
    let mut policy_set = set(&[
        "template both pr",
        "template p p",
        "template none -",
        "template all par",
    ]);
    let mut arity = |spec: &str, text: &str| {
        assert_error(
            add_item(&mut policy_set, spec),
            Reason::Arity,
            &format!("arity: {text}"),
        )
    };
    arity("link both l -", &format!("{MISSING}?resource,?principal"));
    arity(
        "link p l r",
        &format!("{MISSING}?principal. T{EXTRA}?resource"),
    );
    arity("link p l pr", &format!("t{EXTRA}?resource"));
    arity(
        "link all l -",
        &format!("{MISSING}?resource,?action,?principal"),
    );
    arity(
        "link none l par",
        &format!("t{EXTRA}?principal,?action,?resource"),
    );
    assert_eq!(ids(&policy_set), ("both p none all".into(), "".into()));
    for spec in [
        "link both a pr",
        "link p b p",
        "link none c -",
        "link all d par",
    ] {
        add_item(&mut policy_set, spec).unwrap();
    }
    assert_eq!(ids(&policy_set).1, "a b c d");
}

#[test]
fn only_actions_can_be_bound_to_the_action_slot() {
    let mut policy_set = set(&["template t par", "template u a"]);
    let action = |uid| bound(SlotId::action(), uid);
    let text = format!("arity: {MISSING}?resource,?principal");
    assert_error(
        policy_set.link("t", "l", action("A::\"x\"")),
        Reason::Arity,
        &text,
    );
    assert_error(
        policy_set.link("u", "l", action("A::\"x\"")),
        Reason::NotAnAction,
        "not an action A::\"x\"",
    );
    policy_set
        .link("u", "l", action("N::Action::\"v\""))
        .unwrap();
    assert_eq!(ids(&policy_set), ("t u".into(), "l".into()));
}

#[test]
fn only_templates_can_be_linked() {
    let mut policy_set = set(&["permit id", "template t -", "link t l -"]);
    for (spec, id) in [
        ("link id m -", "id"),
        ("link x m p", "x"),
        ("link l m -", "l"),
        ("link x id pr", "x"),
    ] {
        assert_error(
            add_item(&mut policy_set, spec),
            Reason::NoSuchTemplate,
            &format!("no template to link {id}"),
        );
    }
    assert_eq!(ids(&policy_set), ("id t".into(), "id l".into()));
}

#[test]
fn linking_checks_errors_in_order() {
    let mut policy_set = set(&["template u a", "permit s"]);
    let action = |uid| bound(SlotId::action(), uid);
    assert_error(
        policy_set.link("none", "s", action("A::\"x\"")),
        Reason::NoSuchTemplate,
        "no template to link none",
    );
    assert_eq!(
        add_item(&mut policy_set, "link u s p")
            .unwrap_err()
            .reason(),
        Reason::Arity
    );
    assert_error(
        policy_set.link("u", "s", action("A::\"x\"")),
        Reason::NotAnAction,
        "not an action A::\"x\"",
    );
    assert_error(
        policy_set.link("u", "s", action("Action::\"x\"")),
        Reason::IdConflict,
        "occupied s",
    );
    assert_error(
        policy_set.link("u", "u", action("Action::\"x\"")),
        Reason::IdConflict,
        "occupied u",
    );
}

#[test]
fn an_id_can_be_bound_only_once() {
    let mut policy_set = set(&["permit s", "template t p", "link t l p"]);
    for id in ["s", "t", "l"] {
        for spec in [format!("permit {id}"), format!("template {id} p")] {
            assert_error(
                add_item(&mut policy_set, &spec),
                Reason::Occupied,
                &format!("occupied {id}"),
            );
        }
        assert_error(
            add_item(&mut policy_set, &format!("link t {id} p")),
            Reason::IdConflict,
            &format!("occupied {id}"),
        );
    }
    assert_eq!(ids(&policy_set), ("s t".into(), "s l".into()));
}

#[test]
fn removal_keeps_the_order_of_the_remaining_policies() {
    let mut policy_set = set(&["template t p", "link t l p", "link t m p"]);
    assert_error(
        policy_set.remove_static(&id("l")),
        Reason::NotStatic,
        "not a static policy l",
    );
    assert_eq!(ids(&policy_set).1, "l m");
    assert_error(
        policy_set.remove_template(&id("t")),
        Reason::WithLinks,
        "template with links t",
    );
    policy_set.unlink(&id("l")).unwrap();
    assert_eq!(ids(&policy_set), ("t".into(), "m".into()));
    assert_error(policy_set.unlink(&id("l")), Reason::NoLink, "no link l");
    assert_error(
        policy_set.unlink(&id("t")),
        Reason::NotALink,
        "not a link t",
    );
    policy_set.unlink(&id("m")).unwrap();
    policy_set.remove_template(&id("t")).unwrap();
    assert_error(
        policy_set.remove_template(&id("t")),
        Reason::NoTemplate,
        "no template t",
    );
    assert!(policy_set == PolicySet::new());
}

#[test]
fn each_removal_accepts_only_its_kind() {
    let mut policy_set = set(&["permit s", "template t p", "link t l p"]);
    assert_error(
        policy_set.remove_static(&id("t")),
        Reason::NoStatic,
        "no static policy t",
    );
    assert_error(
        policy_set.remove_static(&id("x")),
        Reason::NoStatic,
        "no static policy x",
    );
    assert_error(
        policy_set.remove_template(&id("s")),
        Reason::NotATemplate,
        "not a template s",
    );
    assert_error(
        policy_set.remove_template(&id("l")),
        Reason::NotATemplate,
        "not a template l",
    );
    assert_error(
        policy_set.unlink(&id("s")),
        Reason::NotALink,
        "not a link s",
    );
    policy_set.remove_static(&id("s")).unwrap();
    assert_eq!(ids(&policy_set), ("t".into(), "l".into()));
}

#[test]
fn unlinking_a_new_link_restores_the_set() {
    let mut policy_set = set(&["permit s", "template t pr", "link t l pr", "forbid f"]);
    let before = policy_set.try_clone().unwrap();
    add_item(&mut policy_set, "link t m pr").unwrap();
    assert!(policy_set != before);
    policy_set.unlink(&id("m")).unwrap();
    assert!(policy_set == before);
    policy_set.unlink(&id("l")).unwrap();
    add_item(&mut policy_set, "link t l pr").unwrap();
    assert!(policy_set != before, "the link is the last now");
}

#[test]
fn equal_sets_have_equal_items_in_the_same_order() {
    let specs = ["permit a", "template t p", "link t l p"];
    assert!(set(&specs) == set(&specs));
    assert!(set(&specs) != set(&["template t p", "permit a", "link t l p"]));
    assert!(set(&specs) != set(&["forbid a", "template t p", "link t l p"]));
    assert!(set(&specs) != set(&["permit a", "template t r", "link t l r"]));
    let mut bound_to_another = set(&["permit a", "template t p"]);
    bound_to_another
        .link("t", "l", bound(SlotId::principal(), "A::\"z\""))
        .unwrap();
    assert!(set(&specs) != bound_to_another);
    let mut forbids = PolicySet::new();
    forbids
        .bind_template("t", Effect::Forbid, Slots::principal())
        .unwrap();
    assert!(forbids != set(&["template t p"]));
}

#[test]
fn a_conflicting_id_is_renamed_to_an_unused_id() {
    let mut target = set(&["permit policy0", "permit policy1"]);
    let other = set(&["forbid policy1", "permit policy2"]);
    let before = target.try_clone().unwrap();
    assert_error(
        target.merge_policyset(&other, false),
        Reason::Occupied,
        "occupied policy1",
    );
    assert!(target == before);
    assert_eq!(
        renaming_text(target.merge_policyset(&other, true)),
        "policy1>policy3"
    );
    let expected = "policy0 policy1 policy3 policy2";
    assert_eq!(ids(&target), (expected.into(), expected.into()));
    assert_eq!(ids(&other).0, "policy1 policy2");
}

#[test]
fn a_renamed_template_keeps_its_links() {
    let mut target = set(&["template t p"]);
    let other = set(&["template t r", "link t l r"]);
    assert_eq!(
        renaming_text(target.merge_policyset(&other, true)),
        "t>policy0"
    );
    assert_eq!(ids(&target), ("t policy0".into(), "l".into()));
    assert_error(
        target.remove_template(&id("policy0")),
        Reason::WithLinks,
        "template with links policy0",
    );
    target.remove_template(&id("t")).unwrap();
    let mut target = set(&["template t p", "link t x p"]);
    assert_eq!(
        renaming_text(target.merge_policyset(&set(&["template x -"]), true)),
        "x>policy0"
    );
}

#[test]
fn equal_items_of_both_sets_are_merged() {
    let mut target = set(&["template t p", "link t l p"]);
    let mut other = set(&["template t p", "link t l p"]);
    other
        .link("t", "m", bound(SlotId::principal(), "A::\"y\""))
        .unwrap();
    assert_eq!(renaming_text(target.merge_policyset(&other, false)), "");
    assert_eq!(ids(&target), ("t".into(), "l m".into()));
    assert!(target == other);
}

#[test]
fn a_static_and_an_equal_template_conflict() {
    let mut target = set(&["permit x"]);
    let other = set(&["template x -"]);
    assert_error(
        target.merge_policyset(&other, false),
        Reason::Occupied,
        "occupied x",
    );
    assert_eq!(
        renaming_text(target.merge_policyset(&other, true)),
        "x>policy0"
    );
    assert_eq!(ids(&target), ("x policy0".into(), "x".into()));
}

#[test]
fn merging_each_pair_of_kinds_with_one_id() {
    let kinds: [&[&str]; 5] = [
        &["permit x"],
        &["forbid x"],
        &["template x p"],
        &["template u p", "link u x p"],
        &["template x r"],
    ];
    for (first, target) in kinds.iter().enumerate() {
        for (second, other) in kinds.iter().enumerate() {
            let (mut merged, other) = (set(target), set(other));
            match merged.merge_policyset(&other, false) {
                Ok(renaming) => {
                    assert!(first == second && renaming.is_empty() && merged == set(target))
                }
                Err(error) => assert!(
                    first != second
                        && error == PolicySetError::Occupied { id: id("x") }
                        && merged == set(target)
                ),
            }
            let expected = if first == second { "" } else { "x>policy0" };
            assert_eq!(
                renaming_text(merged.merge_policyset(&other, true)),
                expected
            );
        }
    }
}

#[test]
fn merging_renames_a_hundred_conflicts() {
    let hundred =
        |effect: &str| -> Vec<String> { (0..100).map(|k| format!("{effect} policy{k}")).collect() };
    let set_of = |specs: &[String]| set(&specs.iter().map(String::as_str).collect::<Vec<_>>());
    for further in [0, 1] {
        let mut specs = hundred("forbid");
        specs.extend((0..further).map(|_| String::from("permit policy100")));
        let mut target = set_of(&hundred("permit"));
        let renaming = target.merge_policyset(&set_of(&specs), true).unwrap();
        let numbered = |k: usize| id(&format!("policy{k}"));
        let expected = |k: usize| (numbered(k), numbered(100 + further + k));
        assert!(renaming.into_iter().eq((0..100).map(expected)));
        assert_eq!(target.policies().count(), 200 + further);
    }
}

#[test]
fn conflicts_are_renamed_by_kind() {
    let mut target = set(&["permit a", "template t p", "link t b p", "link t c p"]);
    let other = set(&[
        "template u p",
        "link u t p",
        "template b r",
        "permit c",
        "forbid a",
    ]);
    assert_error(
        target.merge_policyset(&other, false),
        Reason::Occupied,
        "occupied a",
    );
    assert_eq!(
        renaming_text(target.merge_policyset(&other, true)),
        "a>policy0 c>policy1 b>policy2 t>policy3"
    );
    assert_eq!(
        ids(&target),
        (
            "a t u policy2 policy1 policy0".into(),
            "a b c policy3 policy1 policy0".into()
        )
    );
}

#[test]
fn any_text_is_an_id() {
    let mut policy_set = PolicySet::new();
    for id in ["", " ", "it's \"x\"\n", "é", "\0"] {
        policy_set.bind_static(id, Effect::Permit).unwrap();
        assert_error(
            policy_set.bind_static(id, Effect::Permit),
            Reason::Occupied,
            &format!("occupied {id}"),
        );
    }
    assert_eq!(
        policy_set.policy_ids().unwrap(),
        ["", " ", "it's \"x\"\n", "é", "\0"]
    );
}
