//! Differences of drawn policy sets, compared with plain differences of lists. A difference applied by the calls of a set
//! gives the other set.
mod common;
#[path = "common/policies.rs"]
mod policies;

use cedar_store::ast::{
    ActionConstraint, Effect, EntityUID, Expr, Policy, PolicyID, PolicySet, PolicySetDiff, PrincipalConstraint,
    ResourceConstraint, SlotEnv, SlotId, Template,
};
use common::{Random, id, principal, rounds, uid};
use policies::template_with;
use std::collections::BTreeMap;
use std::fmt::Display;

/// A body: a number in its clause, and whether it has the slot of the principal.
type Body = (i64, bool);

#[derive(Clone, Debug, PartialEq)]
enum Item {
    Static(Body),
    /// A link: the id and the body of its template, and the eid of the principal, if it has the slot.
    Link(&'static str, Body, Option<u8>),
}

/// A set as two lists, each in insertion order.
#[derive(Debug, Default)]
struct Model {
    templates: Vec<(&'static str, Body)>,
    policies: Vec<(&'static str, Item)>,
}

/// The ids of a difference, in the order of the methods of `PolicySetDiff`.
type Ids = [Vec<String>; 7];

fn get<'a, T>(list: &'a [(&str, T)], name: &str) -> Option<&'a T> {
    list.iter().find(|(key, _)| *key == name).map(|(_, item)| item)
}

/// Returns the ids of the items that pass a test.
fn ids<T>(list: &[(&str, T)], test: impl Fn(&str, &T) -> bool) -> Vec<String> {
    let passing = list.iter().filter(|(name, item)| test(name, item));
    passing.map(|(name, _)| (*name).to_owned()).collect()
}

fn is_relinked(before: &Item, after: &Item) -> bool {
    match (before, after) {
        (Item::Link(template, body, bound), Item::Link(other_template, other_body, other_bound)) => {
            template == other_template && body != other_body && bound == other_bound
        }
        _ => false,
    }
}

/// Returns the ids in which two models differ.
fn expected_ids(before: &Model, after: &Model) -> Ids {
    let (old, new) = (&before.policies, &after.policies);
    let differs = |name: &str, item: &Item| get(old, name).is_some_and(|former| former != item);
    let relinked = |name: &str, item: &Item| get(old, name).is_some_and(|former| is_relinked(former, item));
    [
        ids(&before.templates, |name, _| get(&after.templates, name).is_none()),
        ids(&after.templates, |name, _| get(&before.templates, name).is_none()),
        ids(&after.templates, |name, body| {
            get(&before.templates, name).is_some_and(|former| former != body)
        }),
        ids(old, |name, _| get(new, name).is_none()),
        ids(new, |name, _| get(old, name).is_none()),
        ids(new, |name, item| differs(name, item) && !relinked(name, item)),
        ids(new, relinked),
    ]
}

fn ids_of(difference: &PolicySetDiff<'_>) -> Ids {
    let templates = |list: &[&Template]| list.iter().map(|template| template.id().to_string()).collect();
    let policies = |list: &[&Policy]| list.iter().map(|policy| policy.id().to_string()).collect();
    let changes = |list: &[(&Policy, &Policy)]| {
        assert!(
            list.iter()
                .all(|(before, after)| before.id() == after.id() && before != after)
        );
        list.iter().map(|(_, after)| after.id().to_string()).collect()
    };
    let changed = difference.changed_templates();
    assert!(
        changed
            .iter()
            .all(|(before, after)| before.id() == after.id() && before != after)
    );
    [
        templates(difference.removed_templates()),
        templates(difference.added_templates()),
        templates(&changed.iter().map(|(_, after)| *after).collect::<Vec<_>>()),
        policies(difference.removed()),
        policies(difference.added()),
        changes(difference.changed()),
        changes(difference.relinked()),
    ]
}

fn template(name: &str, (number, has_slot): Body) -> Template {
    let principal = if has_slot {
        PrincipalConstraint::is_eq_slot()
    } else {
        PrincipalConstraint::any()
    };
    let scope = (principal, ActionConstraint::any(), ResourceConstraint::any());
    template_with(name, Effect::Permit, scope, Some(Expr::val(number)))
}

fn bound(eid: u8) -> EntityUID {
    uid(&format!("A::\"{eid}\""))
}

/// Returns the set of a model.
fn set_of(model: &Model) -> PolicySet {
    let mut set = PolicySet::new();
    for (name, body) in &model.templates {
        set.add_template(template(name, *body)).expect("a new id");
    }
    for (name, item) in &model.policies {
        match item {
            Item::Static(body) => {
                let body = template(name, *body).try_into().expect("a body without slots");
                set.add(Template::link_static_policy(body).1).expect("a new id");
            }
            Item::Link(of, _, eid) => {
                let values = eid.map_or_else(SlotEnv::new, |eid| principal(bound(eid)));
                set.link(id(of), id(name), values).expect("bindings that fit");
            }
        }
    }
    set
}

/// Draws a model over few ids, so that two models have many ids in common.
fn drawn_model(random: &mut Random) -> Model {
    let mut names = vec!["a", "b", "c", "d", "e", "f", "g", "h"];
    let mut model = Model::default();
    while !names.is_empty() {
        let name = names.swap_remove(random.below(names.len()));
        let number = i64::from(random.one_in(3));
        match random.below(5) {
            0 => {}
            1 => model.policies.push((name, Item::Static((number, false)))),
            2 => model.templates.push((name, (number, !random.one_in(4)))),
            _ if model.templates.is_empty() => {}
            _ => {
                let (of, body) = *random.choose(&model.templates);
                let eid = body.1.then(|| u8::from(random.one_in(3)));
                model.policies.push((name, Item::Link(of, body, eid)));
            }
        }
    }
    model
}

/// Draws a model with other numbers in some bodies, without some templates with their links, and without some policies.
fn drawn_edit(random: &mut Random, before: &Model) -> Model {
    let mut after = Model::default();
    let other = |random: &mut Random, (number, has_slot): Body| (number ^ i64::from(random.one_in(3)), has_slot);
    for (name, body) in &before.templates {
        if !random.one_in(5) {
            after.templates.push((name, other(random, *body)));
        }
    }
    for (name, item) in &before.policies {
        let kept = match item {
            Item::Static(body) => Some(Item::Static(other(random, *body))),
            Item::Link(of, _, eid) => get(&after.templates, of).map(|body| Item::Link(of, *body, *eid)),
        };
        if let Some(item) = kept.filter(|_| !random.one_in(5)) {
            after.policies.push((name, item));
        }
    }
    after
}

/// Returns the templates and policies of a set by their ids.
fn content(set: &PolicySet) -> (BTreeMap<PolicyID, Template>, BTreeMap<PolicyID, Policy>) {
    let is_template = |body: &&Template| set.get(body.id()).is_none();
    let templates = set.all_templates().filter(is_template);
    (
        templates.map(|body| (body.id().clone(), body.clone())).collect(),
        set.policies()
            .map(|policy| (policy.id().clone(), policy.clone()))
            .collect(),
    )
}

/// Applies a difference to a set by the calls of the set.
fn apply(set: &mut PolicySet, difference: &PolicySetDiff<'_>) {
    let changed = || difference.changed().iter().chain(difference.relinked());
    for policy in difference.removed().iter().chain(changed().map(|(before, _)| before)) {
        if policy.is_static() {
            set.remove_static(policy.id()).expect("a static policy");
        } else {
            set.unlink(policy.id()).expect("a link");
        }
    }
    let changed_templates = difference.changed_templates();
    for template in difference
        .removed_templates()
        .iter()
        .chain(changed_templates.iter().map(|(before, _)| before))
    {
        set.remove_template(template.id()).expect("a template without links");
    }
    for template in difference
        .added_templates()
        .iter()
        .chain(changed_templates.iter().map(|(_, after)| after))
    {
        set.add_template(Template::clone(template)).expect("a free id");
    }
    for policy in difference.added().iter().chain(changed().map(|(_, after)| after)) {
        set.add(Policy::clone(policy)).expect("a free id");
    }
}

/// Returns the line of a template or a policy, without its sign.
fn line(before: &Model, after: &Model, name: &str) -> String {
    match get(&after.policies, name).or(get(&before.policies, name)) {
        Some(Item::Static(_)) => format!("policy {name}"),
        Some(Item::Link(of, ..)) => format!("link {name} of {of}"),
        None => format!("template {name}"),
    }
}

/// Returns the text that a difference with these ids should have.
fn expected_text(before: &Model, after: &Model, ids: &Ids) -> String {
    let [
        removed_templates,
        added_templates,
        changed_templates,
        removed,
        added,
        changed,
        relinked,
    ] = ids;
    let mut text = String::new();
    for (sign, names) in [
        ('-', removed_templates),
        ('+', added_templates),
        ('~', changed_templates),
    ] {
        text.extend(names.iter().map(|name| format!("{sign} template {name}\n")));
    }
    for (sign, names) in [('-', removed), ('+', added), ('~', changed), ('~', relinked)] {
        text.extend(names.iter().map(|name| match sign {
            '-' => format!("{sign} {}\n", line(&Model::default(), before, name)),
            _ => format!("{sign} {}\n", line(before, after, name)),
        }));
    }
    text
}

/// Returns the lines of a text that have one of two signs, without the signs.
fn lines_with(text: &str, sign: &str) -> String {
    let shown = text
        .lines()
        .filter(|line| line.starts_with(sign) || line.starts_with("  "));
    shown.map(|line| format!("{}\n", &line[2..])).collect()
}

/// Returns the texts of some items, each with a line feed at its end.
fn texts<'a, T: Display + 'a>(items: impl Iterator<Item = &'a T>) -> String {
    items.map(|item| format!("{item}\n")).collect()
}

#[test]
fn drawn_sets_differ_as_their_lists_do() {
    let mut random = Random::new(91);
    let mut seen = [0; 7];
    for _ in 0..rounds(20_000) {
        let before = drawn_model(&mut random);
        let after = if random.one_in(2) {
            drawn_edit(&mut random, &before)
        } else {
            drawn_model(&mut random)
        };
        let (old, new) = (set_of(&before), set_of(&after));
        let difference = old.diff(&new);
        let expected = expected_ids(&before, &after);
        assert_eq!(ids_of(&difference), expected, "{before:?} to {after:?}");
        for (count, names) in seen.iter_mut().zip(&expected) {
            *count += names.len();
        }
        assert_eq!(difference.is_empty(), expected.iter().all(Vec::is_empty));
        assert_eq!(difference.is_empty(), content(&old) == content(&new));
        assert_eq!(difference.to_string(), expected_text(&before, &after, &expected));

        let mut applied = old.clone();
        apply(&mut applied, &difference);
        assert_eq!(content(&applied), content(&new), "{before:?} to {after:?}");
        assert!(applied.diff(&new).is_empty() && old.diff(&old.clone()).is_empty());
    }
    assert!(seen.iter().all(|count| *count > 100), "{seen:?}");
}

#[test]
fn the_lines_with_each_sign_are_the_texts_of_each_set() {
    let mut random = Random::new(92);
    for _ in 0..rounds(4_000) {
        let (old, new) = (set_of(&drawn_model(&mut random)), set_of(&drawn_model(&mut random)));
        let difference = old.diff(&new);
        let headers = difference.to_string();
        let text: String = format!("{difference:#}")
            .lines()
            .filter(|line| !headers.lines().any(|header| header == *line))
            .map(|line| format!("{line}\n"))
            .collect();
        let templates = difference.changed_templates();
        let changes = || difference.changed().iter().chain(difference.relinked());
        let before = texts(
            difference
                .removed_templates()
                .iter()
                .copied()
                .chain(templates.iter().map(|pair| pair.0)),
        ) + &texts(difference.removed().iter().copied().chain(changes().map(|pair| pair.0)));
        let after = texts(
            difference
                .added_templates()
                .iter()
                .copied()
                .chain(templates.iter().map(|pair| pair.1)),
        ) + &texts(difference.added().iter().copied().chain(changes().map(|pair| pair.1)));
        assert_eq!(lines_with(&text, "- "), before);
        assert_eq!(lines_with(&text, "+ "), after);
    }
}

#[test]
fn a_difference_has_the_values_before_and_after() {
    let body = |number, has_slot| (number, has_slot);
    let before = Model {
        templates: vec![("t", body(0, true)), ("u", body(0, true))],
        policies: vec![
            ("a", Item::Static(body(0, false))),
            ("l", Item::Link("t", body(0, true), Some(0))),
            ("m", Item::Link("u", body(0, true), Some(0))),
        ],
    };
    let after = Model {
        templates: vec![("t", body(1, true)), ("u", body(0, true))],
        policies: vec![
            ("l", Item::Link("t", body(1, true), Some(0))),
            ("m", Item::Link("t", body(1, true), Some(0))),
            ("a", Item::Static(body(1, false))),
        ],
    };
    let (old, new) = (set_of(&before), set_of(&after));
    let difference = old.diff(&new);
    assert_eq!(
        difference.changed_templates(),
        [(old.get_template(&id("t")), new.get_template(&id("t")))].map(both)
    );
    assert_eq!(
        difference.relinked(),
        [(old.get(&id("l")), new.get(&id("l")))].map(both)
    );
    assert_eq!(
        difference.changed(),
        ["m", "a"].map(|name| both((old.get(&id(name)), new.get(&id(name)))))
    );
    assert_eq!(
        format!("{difference:#}"),
        "~ template t\n  permit(\n    principal == ?principal,\n    action,\n    resource\n  ) when {\n-   0\n+   1\n  };\n\
         ~ link m of t\n- Template Instance of u, slots: [?principal -> A::\"0\"]\n\
         + Template Instance of t, slots: [?principal -> A::\"0\"]\n\
         ~ policy a\n  permit(\n    principal,\n    action,\n    resource\n  ) when {\n-   0\n+   1\n  };\n\
         ~ link l of t\n  Template Instance of t, slots: [?principal -> A::\"0\"]\n"
    );
}

fn both<T>((one, other): (Option<T>, Option<T>)) -> (T, T) {
    (one.expect("it is in the set"), other.expect("it is in the set"))
}

#[test]
fn the_order_and_the_locations_do_not_count() {
    let item = |number| Item::Static((number, false));
    let one = Model {
        templates: vec![("t", (0, true)), ("u", (0, false))],
        policies: vec![("a", item(0)), ("b", item(1))],
    };
    let other = Model {
        templates: vec![("u", (0, false)), ("t", (0, true))],
        policies: vec![("b", item(1)), ("a", item(0))],
    };
    let (old, new) = (set_of(&one), set_of(&other));
    assert!(old != new && old.diff(&new).is_empty());
    assert_eq!(old.diff(&new).to_string(), "");
    assert_eq!(PolicySet::new().diff(&PolicySet::new()), old.diff(&new));
    let values = SlotEnv::from([(SlotId::principal(), bound(0))]);
    let mut linked = new.clone();
    linked.link(id("t"), id("l"), values).expect("bindings that fit");
    assert_eq!(new.diff(&linked).to_string(), "+ link l of t\n");
    assert_eq!(linked.diff(&new).to_string(), "- link l of t\n");
}
