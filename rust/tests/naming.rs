//! The policies and templates of drawn sets that name a uid, compared with a search in their printed conditions and in
//! their bindings.
mod common;
#[path = "common/policies.rs"]
mod policies;

use cedar_store::ast::{
    ActionConstraint, Effect, EntityUID, Expr, Literal, PolicySet, PrincipalConstraint, ResourceConstraint, SlotEnv,
    SlotId, Template,
};
use common::{Random, id, rounds, shared, uid};
use policies::template_with;

const COUNT: usize = 6;

fn drawn_uid(random: &mut Random) -> EntityUID {
    uid(&format!("{}::\"{}\"", random.choose(&["A", "B"]), random.below(COUNT)))
}

fn drawn_action(random: &mut Random) -> EntityUID {
    uid(&format!("Action::\"{}\"", random.below(COUNT)))
}

fn uid_expr(uid: EntityUID) -> Expr {
    Expr::val(Literal::EntityUID(shared(uid)))
}

/// Returns a clause of some levels, with uids, strings and unknowns at its leaves.
fn drawn_clause(random: &mut Random, levels: usize) -> Expr {
    if levels == 0 || random.one_in(4) {
        return match random.below(3) {
            0 => uid_expr(drawn_uid(random)),
            1 => Expr::val(Literal::from("A::0")),
            _ => Expr::val(Literal::Bool(true)),
        };
    }
    match random.below(4) {
        0 => Expr::not(drawn_clause(random, levels - 1)),
        1 => Expr::set([drawn_clause(random, levels - 1), drawn_clause(random, levels - 1)]),
        2 => Expr::and(drawn_clause(random, levels - 1), drawn_clause(random, levels - 1)),
        _ => Expr::is_in(drawn_clause(random, levels - 1), drawn_clause(random, levels - 1)),
    }
}

/// Returns a template with or without slots.
fn drawn_template(random: &mut Random, name: &str) -> Template {
    let principal = match random.below(5) {
        0 => PrincipalConstraint::any(),
        1 => PrincipalConstraint::is_eq(shared(drawn_uid(random))),
        2 => PrincipalConstraint::is_in(shared(drawn_uid(random))),
        3 => PrincipalConstraint::is_eq_slot(),
        _ => PrincipalConstraint::is_entity_type_in(shared("A".parse().expect("a type")), shared(drawn_uid(random))),
    };
    let resource = match random.below(3) {
        0 => ResourceConstraint::any(),
        1 => ResourceConstraint::is_eq(shared(drawn_uid(random))),
        _ => ResourceConstraint::is_in_slot(),
    };
    let action = match random.below(4) {
        0 => ActionConstraint::any(),
        1 => ActionConstraint::is_eq(drawn_action(random)),
        2 => ActionConstraint::is_in([drawn_action(random), drawn_action(random)]),
        _ => ActionConstraint::is_in([]),
    };
    let clause = random.one_in(2).then(|| drawn_clause(random, 4));
    template_with(name, Effect::Permit, (principal, action, resource), clause)
}

/// Adds a template, and up to two links of it.
fn add(random: &mut Random, set: &mut PolicySet, number: usize) {
    let template = drawn_template(random, &format!("t{number}"));
    let slots: Vec<SlotId> = template.slots().map(|slot| slot.id).collect();
    if slots.is_empty() {
        let policy = Template::link_static_policy(template.try_into().expect("a body without slots")).1;
        set.add(policy).expect("a new id");
        return;
    }
    set.add_template(template).expect("a new id");
    for link in 0..random.below(3) {
        let values: SlotEnv = slots.iter().map(|slot| (*slot, drawn_uid(random))).collect();
        set.link(id(&format!("t{number}")), id(&format!("l{number}-{link}")), values)
            .expect("bindings that fit");
    }
}

#[test]
fn drawn_sets_name_what_their_texts_contain() {
    let mut random = Random::new(80);
    for _ in 0..rounds(2_000) {
        let mut set = PolicySet::new();
        for number in 0..random.below(8) {
            add(&mut random, &mut set, number);
        }
        for _ in 0..4 {
            let asked = if random.one_in(3) {
                drawn_action(&mut random)
            } else {
                drawn_uid(&mut random)
            };
            let text = asked.to_string();
            let in_text = |template: &Template| template.condition().to_string().contains(&text);
            let expected: Vec<String> = set
                .policies()
                .filter(|policy| in_text(policy.template()) || policy.env().values().any(|bound| *bound == asked))
                .map(|policy| policy.id().to_string())
                .collect();
            let found: Vec<String> = set.naming(&asked).map(|policy| policy.id().to_string()).collect();
            assert_eq!(found, expected, "{asked} in {set}");
            let expected: Vec<String> = set
                .templates()
                .filter(|template| in_text(template))
                .map(|template| template.id().to_string())
                .collect();
            let found: Vec<String> = set
                .templates_naming(&asked)
                .map(|template| template.id().to_string())
                .collect();
            assert_eq!(found, expected, "{asked} in the templates of {set}");
            assert!(
                set.policies()
                    .all(|policy| policy.names(&asked) == set.naming(&asked).any(|one| one == policy))
            );
        }
    }
}
