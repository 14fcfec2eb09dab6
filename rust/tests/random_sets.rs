//! Random sequences of calls on policy sets, compared with a plain model: a list of bindings in insertion order.
#![allow(
    unreachable_patterns,
    reason = "the errors of `cedar-store-proved` have an additional variant"
)]
mod common;

use cedar_store::ast::{
    ActionConstraint, Annotations, Effect, EntityUID, Expr, LinkingError, Policy, PolicySet, PolicySetError,
    PolicySetPolicyRemovalError, PolicySetTemplateRemovalError, PolicySetUnlinkError, PrincipalConstraint,
    ResourceConstraint, SlotEnv, SlotId, StaticPolicy, Template,
};
use common::{Random, id};
use std::collections::BTreeMap;
use std::sync::Arc;

/// A body: whether it has the slots of the principal and the resource, and a number in its clause.
#[derive(Clone, Copy, Debug, PartialEq)]
struct Body {
    slots: (bool, bool),
    number: i64,
}

/// The bindings of a link: the eids of the principal and the resource.
type Bound = (Option<u8>, Option<u8>);

#[derive(Clone, Debug, PartialEq)]
enum Binding {
    Static(Body),
    Template(Body),
    Link(String, Bound),
}

/// The result of a call. An error is its kind with the id that it names.
type CallResult = Result<Vec<(String, String)>, (&'static str, String)>;

#[derive(Clone, Debug, Default, PartialEq)]
struct Model(Vec<(String, Binding)>);

impl Model {
    fn get(&self, name: &str) -> Option<&Binding> {
        self.0.iter().find(|(key, _)| key == name).map(|(_, binding)| binding)
    }

    fn template(&self, name: &str) -> Option<Body> {
        match self.get(name) {
            Some(Binding::Template(body)) => Some(*body),
            _ => None,
        }
    }

    fn insert(&mut self, name: &str, binding: Binding) -> CallResult {
        if self.get(name).is_some() {
            return Err(("occupied", name.into()));
        }
        self.0.push((name.into(), binding));
        Ok(vec![])
    }

    fn add_link(&mut self, template: &str, body: Body, name: &str, bound: Bound) -> CallResult {
        match self.get(template) {
            None => {}
            Some(Binding::Template(stored)) if *stored == body => {}
            Some(_) => return Err(("occupied", template.into())),
        }
        if self.get(name).is_some() || name == template {
            return Err(("occupied", name.into()));
        }
        if self.get(template).is_none() {
            self.0.push((template.into(), Binding::Template(body)));
        }
        self.0.push((name.into(), Binding::Link(template.into(), bound)));
        Ok(vec![])
    }

    fn link(&mut self, template: &str, name: &str, bound: Bound) -> CallResult {
        let Some(body) = self.template(template) else {
            return Err(("no template", template.into()));
        };
        if (bound.0.is_some(), bound.1.is_some()) != body.slots {
            return Err(("arity", String::new()));
        }
        if self.get(name).is_some() {
            return Err(("occupied", name.into()));
        }
        self.0.push((name.into(), Binding::Link(template.into(), bound)));
        Ok(vec![])
    }

    fn remove(&mut self, name: &str) -> CallResult {
        self.0.retain(|(key, _)| key != name);
        Ok(vec![])
    }

    fn unlink(&mut self, name: &str) -> CallResult {
        match self.get(name) {
            Some(Binding::Link(..)) => self.remove(name),
            Some(_) => Err(("not a link", name.into())),
            None => Err(("no link", name.into())),
        }
    }

    fn remove_static(&mut self, name: &str) -> CallResult {
        match self.get(name) {
            Some(Binding::Static(_)) => self.remove(name),
            Some(Binding::Link(..)) => Err(("no body", name.into())),
            Some(Binding::Template(_)) | None => Err(("no policy", name.into())),
        }
    }

    fn links_of<'a>(&'a self, template: &'a str) -> impl Iterator<Item = &'a String> {
        self.0
            .iter()
            .filter(move |(_, it)| matches!(it, Binding::Link(of, _) if of == template))
            .map(|(name, _)| name)
    }

    fn remove_template(&mut self, name: &str) -> CallResult {
        match self.get(name) {
            Some(Binding::Template(_)) if self.links_of(name).next().is_some() => Err(("links", name.into())),
            Some(Binding::Template(_)) => self.remove(name),
            Some(_) => Err(("not a template", name.into())),
            None => Err(("no body", name.into())),
        }
    }

    fn conflicts(&self, other: &Model, name: &str) -> bool {
        match (self.get(name), other.get(name)) {
            (Some(Binding::Link(template, bound)), Some(Binding::Link(other_template, other_bound))) => {
                template != other_template
                    || bound != other_bound
                    || self.template(template) != other.template(other_template)
            }
            (Some(binding), Some(other_binding)) => binding != other_binding,
            _ => false,
        }
    }

    /// Returns the ids that conflict: bodies in both sets, policies in both sets, and templates in one set that are
    /// links in the other.
    fn conflicting(&self, other: &Model) -> Vec<String> {
        let body = |it: &Binding| !matches!(it, Binding::Link(..));
        let policy = |it: &Binding| !matches!(it, Binding::Template(_));
        let groups: [&dyn Fn(&Binding, &Binding) -> bool; 4] = [
            &|here, there| body(here) && body(there),
            &|here, there| policy(here) && policy(there),
            &|here, there| !body(here) && !policy(there),
            &|here, there| !policy(here) && !body(there),
        ];
        let mut all: Vec<String> = Vec::new();
        for in_group in groups {
            for (name, there) in &other.0 {
                let Some(here) = self.get(name) else { continue };
                if in_group(here, there) && self.conflicts(other, name) && !all.contains(name) {
                    all.push(name.clone());
                }
            }
        }
        all
    }

    fn merge(&mut self, other: &Model, rename: bool) -> CallResult {
        let conflicting = self.conflicting(other);
        if let (false, Some(first)) = (rename, conflicting.first()) {
            return Err(("occupied", first.clone()));
        }
        let mut free = (0..)
            .map(|number| format!("policy{number}"))
            .filter(|name| self.get(name).is_none() && other.get(name).is_none());
        let renaming: Vec<(String, String)> = conflicting
            .into_iter()
            .map(|name| (name, free.next().expect("there are enough numbers")))
            .collect();
        drop(free);
        let renamed = |name: &String| {
            renaming
                .iter()
                .find(|(old, _)| old == name)
                .map_or_else(|| name.clone(), |(_, new)| new.clone())
        };
        for (name, binding) in &other.0 {
            if self.get(&renamed(name)).is_none() {
                let binding = match binding {
                    Binding::Link(template, bound) => Binding::Link(renamed(template), *bound),
                    body => body.clone(),
                };
                self.0.push((renamed(name), binding));
            }
        }
        Ok(renaming)
    }
}

fn uid(eid: u8) -> EntityUID {
    EntityUID::with_eid_and_type("A", &eid.to_string()).unwrap()
}

fn template(name: &str, body: Body) -> Template {
    Template::new(
        id(name),
        None,
        Annotations::new(),
        Effect::Permit,
        if body.slots.0 {
            PrincipalConstraint::is_eq_slot()
        } else {
            PrincipalConstraint::any()
        },
        ActionConstraint::any(),
        if body.slots.1 {
            ResourceConstraint::is_in_slot()
        } else {
            ResourceConstraint::any()
        },
        Some(Expr::val(body.number)),
    )
}

fn bindings((principal, resource): Bound) -> SlotEnv {
    let named = [(SlotId::principal(), principal), (SlotId::resource(), resource)];
    named
        .into_iter()
        .filter_map(|(slot, eid)| Some((slot, uid(eid?))))
        .collect()
}

/// Asserts that the set is equal to the model: both orders, each binding, and the links of each template.
fn assert_equals_model(set: &PolicySet, model: &Model) {
    let bodies: Vec<_> = set.all_templates().map(|body| body.id().to_string()).collect();
    let expected = model.0.iter().filter(|(_, it)| !matches!(it, Binding::Link(..)));
    assert_eq!(bodies, expected.map(|(name, _)| name.clone()).collect::<Vec<_>>());
    let policies: Vec<_> = set.policies().map(|policy| policy.id().to_string()).collect();
    let expected = model.0.iter().filter(|(_, it)| !matches!(it, Binding::Template(_)));
    assert_eq!(policies, expected.map(|(name, _)| name.clone()).collect::<Vec<_>>());
    for (name, binding) in &model.0 {
        match binding {
            Binding::Static(body) => {
                assert!(set.get(&id(name)).expect("it is present").is_static());
                assert_eq!(set.get_template(&id(name)), Some(&template(name, *body)));
                assert_eq!(linked(set, name), std::slice::from_ref(name));
            }
            Binding::Template(body) => {
                assert!(set.get(&id(name)).is_none());
                assert_eq!(set.get_template(&id(name)), Some(&template(name, *body)));
                assert_eq!(linked(set, name), model.links_of(name).cloned().collect::<Vec<_>>());
            }
            Binding::Link(of, bound) => {
                let link = set.get(&id(name)).expect("it is present");
                assert_eq!(
                    link.template(),
                    set.get_template(&id(of)).expect("its template is present")
                );
                assert_eq!(link.env(), &bindings(*bound));
                assert!(set.get_template(&id(name)).is_none());
                assert!(set.get_linked_policies(&id(name)).is_err());
            }
        }
    }
}

fn linked(set: &PolicySet, name: &str) -> Vec<String> {
    set.get_linked_policies(&id(name))
        .expect("a body")
        .map(ToString::to_string)
        .collect()
}

fn policy_set_error(error: PolicySetError) -> (&'static str, String) {
    match error {
        PolicySetError::Occupied { id } => ("occupied", id.to_string()),
        other => panic!("{other}"),
    }
}

fn linking_error(error: LinkingError) -> (&'static str, String) {
    match error {
        LinkingError::ArityError { .. } => ("arity", String::new()),
        LinkingError::NoSuchTemplate { id } => ("no template", id.to_string()),
        LinkingError::PolicyIdConflict { id } => ("occupied", id.to_string()),
        other => panic!("{other}"),
    }
}

fn unlinking_error(error: PolicySetUnlinkError) -> (&'static str, String) {
    match error {
        PolicySetUnlinkError::UnlinkingError(id) => ("no link", id.to_string()),
        PolicySetUnlinkError::NotLinkError(id) => ("not a link", id.to_string()),
        other => panic!("{other}"),
    }
}

fn removal_error(error: PolicySetPolicyRemovalError) -> (&'static str, String) {
    match error {
        PolicySetPolicyRemovalError::RemovePolicyNoLinkError(id) => ("no policy", id.to_string()),
        PolicySetPolicyRemovalError::RemovePolicyNoTemplateError(id) => ("no body", id.to_string()),
        other => panic!("{other}"),
    }
}

fn template_removal_error(error: PolicySetTemplateRemovalError) -> (&'static str, String) {
    match error {
        PolicySetTemplateRemovalError::RemovePolicyNoTemplateError(id) => ("no body", id.to_string()),
        PolicySetTemplateRemovalError::RemoveTemplateWithLinksError(id) => ("links", id.to_string()),
        PolicySetTemplateRemovalError::NotTemplateError(id) => ("not a template", id.to_string()),
        other => panic!("{other}"),
    }
}

fn random_body(random: &mut Random) -> Body {
    Body {
        slots: (!random.one_in(3), random.one_in(2)),
        number: i64::from(random.one_in(4)),
    }
}

fn random_bound(random: &mut Random, body: Option<Body>) -> Bound {
    let slots = body
        .filter(|_| !random.one_in(6))
        .map_or_else(|| (random.one_in(2), random.one_in(2)), |it| it.slots);
    let eid = |random: &mut Random| if random.one_in(3) { 1 } else { 0 };
    (slots.0.then(|| eid(random)), slots.1.then(|| eid(random)))
}

/// Makes the same call on both, and compares the results.
fn check_random_call(random: &mut Random, set: &mut PolicySet, model: &mut Model, names: &[&str]) {
    let (first, second) = (*random.choose(names), *random.choose(names));
    let no_renaming = |_| vec![];
    let (expected, result): (CallResult, CallResult) = match random.below(12) {
        0 | 1 => {
            let body = Body {
                slots: (false, false),
                ..random_body(random)
            };
            let policy = StaticPolicy::try_from(template(first, body)).expect("no slot");
            let result = if random.one_in(2) {
                set.add_static(policy)
            } else {
                set.add(policy.into())
            };
            (
                model.insert(first, Binding::Static(body)),
                result.map(no_renaming).map_err(policy_set_error),
            )
        }
        2 | 3 => {
            let body = random_body(random);
            let result = set.add_template(template(first, body));
            (
                model.insert(first, Binding::Template(body)),
                result.map(no_renaming).map_err(policy_set_error),
            )
        }
        4 | 5 => {
            let body = model
                .template(first)
                .filter(|_| !random.one_in(5))
                .unwrap_or_else(|| random_body(random));
            let bound = (body.slots.0.then_some(0), body.slots.1.then_some(0));
            let policy = Template::link(Arc::new(template(first, body)), id(second), bindings(bound)).expect("it fits");
            (
                model.add_link(first, body, second, bound),
                set.add(policy).map(no_renaming).map_err(policy_set_error),
            )
        }
        6..=8 => {
            let bound = random_bound(random, model.template(first));
            let result = set
                .link(id(first), id(second), bindings(bound))
                .map(|_| vec![])
                .map_err(linking_error);
            (model.link(first, second, bound), result)
        }
        9 => (
            model.unlink(first),
            set.unlink(&id(first)).map(|_| vec![]).map_err(unlinking_error),
        ),
        10 => (
            model.remove_static(first),
            set.remove_static(&id(first)).map(|_| vec![]).map_err(removal_error),
        ),
        _ => (
            model.remove_template(first),
            set.remove_template(&id(first))
                .map(|_| vec![])
                .map_err(template_removal_error),
        ),
    };
    assert_eq!(result, expected);
}

fn random_set(random: &mut Random, calls: usize, names: &[&str]) -> (PolicySet, Model) {
    let (mut set, mut model) = (PolicySet::new(), Model::default());
    for _ in 0..calls {
        check_random_call(random, &mut set, &mut model, names);
        assert_equals_model(&set, &model);
    }
    (set, model)
}

const NAMES: [&str; 6] = ["a", "b", "c", "policy0", "policy1", "policy3"];

#[test]
fn random_calls() {
    for seed in 0..common::rounds(2_000) {
        random_set(&mut Random::new(seed), 40, &NAMES);
    }
}

#[test]
fn merges_of_random_sets() {
    let (mut renamed_count, mut failed_count) = (0, 0);
    for seed in 0..common::rounds(20_000) {
        let mut random = Random::new(seed);
        let (calls, other_calls) = (random.below(9), random.below(9));
        let (mut set, mut model) = random_set(&mut random, calls, &NAMES);
        let (other, other_model) = random_set(&mut random, other_calls, &NAMES);
        for rename in [false, true] {
            let expected = model.merge(&other_model, rename);
            let result: CallResult = match set.merge_policyset(&other, rename) {
                Ok(renaming) => Ok(renaming
                    .iter()
                    .map(|(old, new)| (old.to_string(), new.to_string()))
                    .collect()),
                Err(error) => Err(policy_set_error(error)),
            };
            assert_eq!(result, expected, "seed {seed}");
            assert_equals_model(&set, &model);
            assert_equals_model(&other, &other_model);
            renamed_count += expected.as_ref().map_or(0, Vec::len);
            failed_count += usize::from(expected.is_err());
        }
        // merging a set into itself changes nothing
        let same = set.clone();
        assert!(set.merge_policyset(&same, false).expect("nothing conflicts").is_empty());
        assert_eq!(set, same);
    }
    assert!(
        renamed_count as u64 > common::rounds(5_000) && failed_count as u64 > common::rounds(5_000),
        "{renamed_count} ids were renamed and {failed_count} merges failed"
    );
}

/// All pairs of small sets: each has one binding of each kind, which are equal or different and have the same id or
/// different ids.
#[test]
fn merges_of_all_small_sets() {
    let body = |slots, number| Body { slots, number };
    let (no_slots, one_slot, two_slots) = ((false, false), (true, false), (true, true));
    let kinds: Vec<Model> = vec![
        Model::default(),
        Model(vec![("x".into(), Binding::Static(body(no_slots, 0)))]),
        Model(vec![("x".into(), Binding::Static(body(no_slots, 1)))]),
        Model(vec![("x".into(), Binding::Template(body(no_slots, 0)))]),
        Model(vec![("x".into(), Binding::Template(body(one_slot, 0)))]),
        Model(vec![("x".into(), Binding::Template(body(two_slots, 0)))]),
        Model(vec![
            ("t".into(), Binding::Template(body(one_slot, 0))),
            ("x".into(), Binding::Link("t".into(), (Some(0), None))),
        ]),
        Model(vec![
            ("t".into(), Binding::Template(body(one_slot, 0))),
            ("x".into(), Binding::Link("t".into(), (Some(1), None))),
        ]),
        Model(vec![
            ("t".into(), Binding::Template(body(one_slot, 1))),
            ("x".into(), Binding::Link("t".into(), (Some(0), None))),
        ]),
        Model(vec![
            ("u".into(), Binding::Template(body(one_slot, 0))),
            ("x".into(), Binding::Link("u".into(), (Some(0), None))),
        ]),
        Model(vec![
            ("x".into(), Binding::Template(body(one_slot, 0))),
            ("t".into(), Binding::Link("x".into(), (Some(0), None))),
        ]),
        Model(vec![
            ("t".into(), Binding::Static(body(no_slots, 0))),
            ("x".into(), Binding::Template(body(no_slots, 0))),
        ]),
    ];
    let mut counts = BTreeMap::new();
    for here in &kinds {
        for there in &kinds {
            for rename in [false, true] {
                let (mut set, mut model) = (policy_set_of(here), here.clone());
                let expected = model.merge(there, rename);
                let result: CallResult = match set.merge_policyset(&policy_set_of(there), rename) {
                    Ok(renaming) => Ok(renaming
                        .iter()
                        .map(|(old, new)| (old.to_string(), new.to_string()))
                        .collect()),
                    Err(error) => Err(policy_set_error(error)),
                };
                assert_eq!(result, expected, "{here:?} and {there:?}");
                assert_equals_model(&set, &model);
                *counts.entry(expected.is_ok()).or_insert(0) += 1;
            }
        }
    }
    assert!(counts[&false] > 30, "{counts:?}");
}

/// Returns the set of a model. Each binding is added by its own call.
fn policy_set_of(model: &Model) -> PolicySet {
    let mut set = PolicySet::new();
    for (name, binding) in &model.0 {
        match binding {
            Binding::Static(body) => set
                .add_static(StaticPolicy::try_from(template(name, *body)).unwrap())
                .unwrap(),
            Binding::Template(body) => set.add_template(template(name, *body)).unwrap(),
            Binding::Link(of, bound) => {
                set.link(id(of), id(name), bindings(*bound)).unwrap();
            }
        }
    }
    set
}

/// Linking and unlinking leaves the set unchanged.
#[test]
fn link_then_unlink_leaves_the_set_unchanged() {
    for seed in 0..500 {
        let (mut set, model) = random_set(&mut Random::new(seed), 20, &NAMES);
        for (name, body) in model.0.iter().filter_map(|(name, it)| match it {
            Binding::Template(body) => Some((name, body)),
            _ => None,
        }) {
            let before = set.clone();
            let bound = (body.slots.0.then_some(7), body.slots.1.then_some(7));
            let policy: Policy = set
                .link(id(name), id("fresh"), bindings(bound))
                .expect("it fits")
                .clone();
            assert_eq!(set.unlink(&id("fresh")).expect("it was linked"), policy);
            assert_eq!(set, before);
            assert_equals_model(&set, &model);
        }
    }
}
