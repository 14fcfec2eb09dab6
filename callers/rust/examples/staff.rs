//! A small store, and a template with a link: who may enter?
use cedar_store_proved::ast::{
    ActionConstraint, Annotations, Effect, Entity, EntityUID, Expr, PolicyID, PolicySet,
    PrincipalConstraint, ResourceConstraint, SlotEnv, SlotId, Template, Value, Var,
};
use cedar_store_proved::entities::{Entities, TCComputation::ComputeNow};

fn main() -> Result<(), Box<dyn std::error::Error>> {
    let uid = EntityUID::from_normalized_str;
    let (alice, staff) = (uid(r#"User::"alice""#)?, uid(r#"Group::"staff""#)?);
    let entity = Entity::with_uid(alice.clone())
        .with_parent(staff.clone())
        .with_attr("age", Value::from(41));
    let store = Entities::from_entities([entity], ComputeNow)?;
    let found = store.entity(&alice).unwrap();
    println!("{} {:?}", found.is_descendant_of(&staff), found.get("age"));

    let itself = Expr::is_eq(Expr::var(Var::Principal), Expr::var(Var::Resource));
    let mut set = PolicySet::new();
    set.add_template(Template::new(
        PolicyID::from_string("enter"),
        None,
        Annotations::new(),
        Effect::Permit,
        PrincipalConstraint::is_in_slot(),
        ActionConstraint::is_eq(uid(r#"Action::"enter""#)?),
        ResourceConstraint::any(),
        Some(Expr::not(itself)),
    ))?;
    let bound = SlotEnv::from([(SlotId::principal(), staff)]);
    let link = set.link("enter", "staff enter", bound)?;
    println!("{} {}", link.effect(), link.principal_constraint());
    println!("{}", link.condition());
    Ok(())
}
