//! Templates and links: a folder is shared with users by links of one template, and a user loses access when the link
//! is removed.
use cedar_store::ast::{
    ActionConstraint, Annotation, Annotations, Effect, EntityUID, PolicyID, PolicySet, PrincipalConstraint,
    ResourceConstraint, SlotEnv, SlotId, Template,
};
use cedar_store::entities::Entities;
use std::error::Error;

/// Returns the template by which a user may view a file. Both are slots.
fn may_view() -> Result<Template, Box<dyn Error>> {
    let advice = Annotation::with_optional_value(Some("shared by its owner".to_string()), None);
    Ok(Template::new(
        "may-view".into(),
        None,
        Annotations::from_iter([("advice".parse()?, advice)]),
        Effect::Permit,
        PrincipalConstraint::is_eq_slot(),
        ActionConstraint::is_eq(r#"Action::"view""#.parse()?),
        ResourceConstraint::is_eq_slot(),
        None,
    ))
}

/// Shares a file with a user. Returns the id of the link.
fn share(policies: &mut PolicySet, user: &EntityUID, file: &EntityUID) -> Result<PolicyID, Box<dyn Error>> {
    let id = PolicyID::from(format!("{} views {}", user.eid().as_ref(), file.eid().as_ref()));
    let values = SlotEnv::from([(SlotId::principal(), user.clone()), (SlotId::resource(), file.clone())]);
    policies.link("may-view".into(), id.clone(), values)?;
    Ok(id)
}

/// Returns the ids of the policies by which a user may view a file.
fn reasons(policies: &PolicySet, user: &EntityUID, file: &EntityUID) -> Result<Vec<String>, Box<dyn Error>> {
    let (view, entities) = (r#"Action::"view""#.parse()?, Entities::new());
    let applicable = policies
        .iter()
        .filter(|policy| policy.applies_to_scope(user, &view, file, &entities));
    Ok(applicable.map(|policy| policy.id().to_string()).collect())
}

fn main() -> Result<(), Box<dyn Error>> {
    let [alice, bob, plan] = [r#"User::"alice""#, r#"User::"bob""#, r#"File::"plan""#]
        .map(|text| text.parse::<EntityUID>().expect("a printed uid"));
    let mut policies = PolicySet::new();
    policies.add_template(may_view()?)?;

    let of_alice = share(&mut policies, &alice, &plan)?;
    share(&mut policies, &bob, &plan)?;
    println!(
        "links: {:?}",
        policies.get_linked_policies(&"may-view".into())?.collect::<Vec<_>>()
    );
    for policy in &policies {
        println!("{policy}");
    }

    // a link must bind exactly the slots of its template, and its id must be new
    let too_few = SlotEnv::from([(SlotId::principal(), alice.clone())]);
    println!(
        "error: {}",
        policies.link("may-view".into(), "new".into(), too_few).unwrap_err()
    );
    println!("error: {}", share(&mut policies, &bob, &plan).unwrap_err());

    // a template with links cannot be removed
    println!("error: {}", policies.remove_template(&"may-view".into()).unwrap_err());
    println!("alice views the plan by {:?}", reasons(&policies, &alice, &plan)?);
    policies.unlink(&of_alice)?;
    println!("alice views the plan by {:?}", reasons(&policies, &alice, &plan)?);
    println!("bob views the plan by {:?}", reasons(&policies, &bob, &plan)?);
    Ok(())
}
