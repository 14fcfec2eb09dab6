//! A merge of two policy sets, as two teams may have written them: equal items are there once, and items with the same
//! id and another content get new ids.
use cedar_store::ast::{Effect, EntityUID, Expr, Policy, PolicyID, PolicySet, Var};
use std::error::Error;

/// Returns a policy with the clause that the principal is equal to a user.
fn about(id: &str, effect: Effect, user: &str) -> Result<Policy, Box<dyn Error>> {
    let user: EntityUID = user.parse()?;
    let clause = Expr::is_eq(Expr::var(Var::Principal), Expr::val(user));
    Ok(Policy::from_when_clause(effect, clause, id.into(), None))
}

fn print(policies: &PolicySet) {
    for policy in policies {
        let clause = policy.non_scope_constraints().map(ToString::to_string);
        println!(
            "  {}: {} when {}",
            policy.id(),
            policy.effect(),
            clause.unwrap_or_default()
        );
    }
}

fn main() -> Result<(), Box<dyn Error>> {
    let common = about("policy0", Effect::Permit, r#"User::"alice""#)?;
    let first = about("policy1", Effect::Permit, r#"User::"bob""#)?;
    let second = about("policy1", Effect::Forbid, r#"User::"carol""#)?;
    let mut policies = PolicySet::try_from_iter([common.clone(), first])?;
    let others = PolicySet::try_from_iter([common, second])?;

    // without new ids, a conflict is an error, and the set is as before
    let error = policies.merge_policyset(&others, false).unwrap_err();
    println!("error: {error}");
    print(&policies);

    // a clone is a snapshot that shares all policies, so it costs little to keep the set as it was
    let before = policies.clone();
    let renaming = policies.merge_policyset(&others, true)?;
    for (old, new) in renaming.iter() {
        println!("{old} of the second team is now {new}");
    }
    print(&policies);
    println!("{} policies before, {} after", before.len(), policies.len());
    let renamed = &renaming[&PolicyID::from("policy1")];
    assert_eq!(policies.get(renamed).map(Policy::effect), Some(Effect::Forbid));
    Ok(())
}
