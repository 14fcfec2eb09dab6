//! Helpers that create static policies and templates.
#![allow(dead_code, reason = "each test file uses some of the helpers")]

use cedar_store::ast::{
    ActionConstraint, Annotations, Effect, Expr, PolicyID, PrincipalConstraint, ResourceConstraint, StaticPolicy,
    Template,
};

/// Returns a static policy that permits everything, with a clause.
pub fn permit(name: &str, clause: Option<Expr>) -> StaticPolicy {
    StaticPolicy::new(
        PolicyID::from_string(name),
        None,
        Annotations::new(),
        Effect::Permit,
        PrincipalConstraint::any(),
        ActionConstraint::any(),
        ResourceConstraint::any(),
        clause,
    )
    .expect("a clause without slots")
}

/// Returns a template without annotations.
pub fn template_with(
    name: &str,
    effect: Effect,
    scope: (PrincipalConstraint, ActionConstraint, ResourceConstraint),
    clause: Option<Expr>,
) -> Template {
    let (principal, action, resource) = scope;
    Template::new(
        PolicyID::from_string(name),
        None,
        Annotations::new(),
        effect,
        principal,
        action,
        resource,
        clause,
    )
}

/// Returns a template with these constraints and no clause.
pub fn template(name: &str, effect: Effect, principal: PrincipalConstraint, resource: ResourceConstraint) -> Template {
    template_with(name, effect, (principal, ActionConstraint::any(), resource), None)
}

/// Returns a template with the principal's slot.
pub fn principal_template(name: &str) -> Template {
    template(
        name,
        Effect::Permit,
        PrincipalConstraint::is_eq_slot(),
        ResourceConstraint::any(),
    )
}

/// Returns a template with the resource's slot.
pub fn resource_template(name: &str) -> Template {
    template(
        name,
        Effect::Forbid,
        PrincipalConstraint::any(),
        ResourceConstraint::is_eq_slot(),
    )
}
