//! A service that administers policies: it adds, links, unlinks and merges them, and shows the message of each error. A
//! call that returns an error leaves the set unchanged.
use cedar_store::ast::{
    ActionConstraint, Annotations, Effect, EntityUID, LinkingError, PolicyID, PolicySet, PolicySetError,
    PrincipalConstraint, ResourceConstraint, SlotEnv, SlotId, StaticPolicy, Template,
};
use std::error::Error;

fn id(text: &str) -> PolicyID {
    PolicyID::from_string(text)
}

fn unconstrained(name: &str, effect: Effect) -> Result<StaticPolicy, Box<dyn Error>> {
    Ok(StaticPolicy::new(
        id(name),
        None,
        Annotations::new(),
        effect,
        PrincipalConstraint::any(),
        ActionConstraint::any(),
        ResourceConstraint::any(),
        None,
    )?)
}

fn user_template(name: &str) -> Template {
    Template::new(
        id(name),
        None,
        Annotations::new(),
        Effect::Permit,
        PrincipalConstraint::is_eq_slot(),
        ActionConstraint::any(),
        ResourceConstraint::any(),
        None,
    )
}

fn policy_ids(set: &PolicySet) -> Vec<String> {
    set.policies().map(|policy| policy.id().to_string()).collect()
}

fn main() -> Result<(), Box<dyn Error>> {
    let alice = EntityUID::from_normalized_str(r#"User::"alice""#)?;
    let mut live = PolicySet::new();
    live.add_static(unconstrained("policy0", Effect::Permit)?)?;
    live.add_template(user_template("per user"))?;
    live.link(
        id("per user"),
        id("for alice"),
        SlotEnv::from([(SlotId::principal(), alice)]),
    )?;
    println!("live: {:?}", policy_ids(&live));

    // an id is bound only once
    match live.add_static(unconstrained("for alice", Effect::Forbid)?) {
        Err(PolicySetError::Occupied { id }) => println!("error: the id {id} is already bound"),
        other => unreachable!("the id belongs to a link: {other:?}"),
    }
    // a link binds every slot
    match live.link(id("per user"), id("for nobody"), SlotEnv::new()) {
        Err(LinkingError::ArityError { unbound_values, .. }) => {
            println!("error: the slot {} is not bound", unbound_values[0])
        }
        Err(other) => println!("error: {other}"),
        Ok(link) => println!("linked: {link}"),
    }
    // a template with links cannot be removed
    if let Err(error) = live.remove_template(&id("per user")) {
        println!("error: {error}");
    }

    // the policies of a second team are merged, and conflicting ids are renamed
    let mut team = PolicySet::new();
    team.add_static(unconstrained("policy0", Effect::Forbid)?)?;
    team.add_static(unconstrained("policy1", Effect::Permit)?)?;
    if let Err(error) = live.merge_policyset(&team, false) {
        println!("error: {error}");
    }
    for (old, new) in live.merge_policyset(&team, true)?.iter() {
        println!("renamed: {old} of the team to {new}");
    }
    println!("live: {:?}", policy_ids(&live));

    let link = live.unlink(&id("for alice"))?;
    live.remove_template(&id("per user"))?;
    println!("unlinked: {link}");
    println!("live: {:?}", policy_ids(&live));
    Ok(())
}
