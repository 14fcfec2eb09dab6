//! Bodies of policies and templates: an id, annotations, an effect, three scope constraints and a clause.
use crate::action::ActionConstraint;
use crate::annotation::{Annotation, Annotations, Iter};
use crate::expr::Expr;
use crate::name::{AnyId, Loc};
use crate::policy::{Effect, PolicyID};
use crate::scope::{PrincipalConstraint, ResourceConstraint};
use std::fmt;
use std::hash::{Hash, Hasher};
use std::sync::Arc;

/// The parts of a body: id, annotations, effect, three scope constraints, an optional clause and an optional location.
/// Comparisons ignore locations.
#[derive(Clone, Debug)]
pub struct TemplateBodyImpl {
    id: PolicyID,
    loc: Option<Loc>,
    annotations: Arc<Annotations>,
    effect: Effect,
    principal_constraint: PrincipalConstraint,
    action_constraint: ActionConstraint,
    resource_constraint: ResourceConstraint,
    non_scope_constraints: Option<Arc<Expr>>,
}

// The constraints on the principal, the action and the resource.
type Scope<'a> = (
    &'a PrincipalConstraint,
    &'a ActionConstraint,
    &'a ResourceConstraint,
);

impl TemplateBodyImpl {
    fn scope(&self) -> Scope<'_> {
        (
            &self.principal_constraint,
            &self.action_constraint,
            &self.resource_constraint,
        )
    }

    // Returns the comparison key.
    fn key(&self) -> (&PolicyID, &Annotations, Effect, Scope<'_>, Option<&Expr>) {
        let clause = self.non_scope_constraints.as_deref();
        (
            &self.id,
            &self.annotations,
            self.effect,
            self.scope(),
            clause,
        )
    }
}

impl PartialEq for TemplateBodyImpl {
    fn eq(&self, other: &TemplateBodyImpl) -> bool {
        self.key() == other.key()
    }
}

impl Eq for TemplateBodyImpl {}

impl Hash for TemplateBodyImpl {
    fn hash<H: Hasher>(&self, state: &mut H) {
        self.key().hash(state);
    }
}

/// The body of a policy or a template. The body of a static policy has no slots.
///
/// Equality and hash use the parts and ignore locations. `Display` writes the annotations, the effect, the constraints
/// and the clause, as a policy set does.
///
/// ```
/// use cedar_store_proved::ast::*;
/// let body = TemplateBody::new(
///     PolicyID::from_string("t"),
///     None,
///     Annotations::new(),
///     Effect::Permit,
///     PrincipalConstraint::is_eq_slot(),
///     ActionConstraint::any(),
///     ResourceConstraint::any(),
///     Some(Expr::val(true)),
/// );
/// assert_eq!(body.condition().to_string(), "(principal == ?principal) && (true && (true && true))");
/// let text = "permit(\n  principal == ?principal,\n  action,\n  resource\n) when {\n  true\n};";
/// assert_eq!(body.to_string(), text);
/// ```
#[derive(Clone, Debug, PartialEq, Eq, Hash)]
pub enum TemplateBody {
    /// A body with these parts.
    TemplateBody(TemplateBodyImpl),
}

impl TemplateBody {
    /// Creates a body from its parts.
    pub fn new(
        id: PolicyID,
        loc: Option<Loc>,
        annotations: Annotations,
        effect: Effect,
        principal_constraint: PrincipalConstraint,
        action_constraint: ActionConstraint,
        resource_constraint: ResourceConstraint,
        non_scope_constraints: Option<Expr>,
    ) -> TemplateBody {
        TemplateBody::new_shared(
            id,
            loc,
            Arc::new(annotations),
            effect,
            principal_constraint,
            action_constraint,
            resource_constraint,
            non_scope_constraints.map(Arc::new),
        )
    }

    /// Creates a body from its parts, with annotations and a clause that are already shared.
    pub fn new_shared(
        id: PolicyID,
        loc: Option<Loc>,
        annotations: Arc<Annotations>,
        effect: Effect,
        principal_constraint: PrincipalConstraint,
        action_constraint: ActionConstraint,
        resource_constraint: ResourceConstraint,
        non_scope_constraints: Option<Arc<Expr>>,
    ) -> TemplateBody {
        TemplateBody::TemplateBody(TemplateBodyImpl {
            id,
            loc,
            annotations,
            effect,
            principal_constraint,
            action_constraint,
            resource_constraint,
            non_scope_constraints,
        })
    }

    fn parts(&self) -> &TemplateBodyImpl {
        let TemplateBody::TemplateBody(parts) = self;
        parts
    }

    /// Returns the id.
    pub fn id(&self) -> &PolicyID {
        &self.parts().id
    }

    /// Returns the location of the whole policy, if it is known. The C library does not store locations, so a body that
    /// is read from a set has none.
    pub fn loc(&self) -> Option<&Loc> {
        self.parts().loc.as_ref()
    }

    /// Copies the body, with another id. Keeps the location.
    pub fn new_id(&self, id: PolicyID) -> TemplateBody {
        let parts = self.parts().clone();
        TemplateBody::TemplateBody(TemplateBodyImpl { id, ..parts })
    }

    /// Returns the effect.
    pub fn effect(&self) -> Effect {
        self.parts().effect
    }

    /// Returns the annotation with this key, if there is one.
    pub fn annotation(&self, key: &AnyId) -> Option<&Annotation> {
        self.parts().annotations.get(key)
    }

    /// Iterates over the annotations with their keys, in ascending order of the keys.
    pub fn annotations(&self) -> Iter<'_> {
        self.parts().annotations.iter()
    }

    /// Returns the shared annotations.
    pub fn annotations_arc(&self) -> &Arc<Annotations> {
        &self.parts().annotations
    }

    /// Returns the constraint on the principal.
    pub fn principal_constraint(&self) -> &PrincipalConstraint {
        &self.parts().principal_constraint
    }

    /// Returns the constraint on the principal as an expression; see [`PrincipalConstraint::as_expr`].
    pub fn principal_constraint_expr(&self) -> Expr {
        self.principal_constraint().as_expr()
    }

    /// Returns the constraint on the action.
    pub fn action_constraint(&self) -> &ActionConstraint {
        &self.parts().action_constraint
    }

    /// Returns the constraint on the action as an expression; see [`ActionConstraint::as_expr`].
    pub fn action_constraint_expr(&self) -> Expr {
        self.action_constraint().as_expr()
    }

    /// Returns the constraint on the resource.
    pub fn resource_constraint(&self) -> &ResourceConstraint {
        &self.parts().resource_constraint
    }

    /// Returns the constraint on the resource as an expression; see [`ResourceConstraint::as_expr`].
    pub fn resource_constraint_expr(&self) -> Expr {
        self.resource_constraint().as_expr()
    }

    /// Returns the clause, if there is one.
    pub fn non_scope_constraints(&self) -> Option<&Expr> {
        self.non_scope_constraints_arc().map(Arc::as_ref)
    }

    /// Returns the shared clause, if there is one.
    pub fn non_scope_constraints_arc(&self) -> Option<&Arc<Expr>> {
        self.parts().non_scope_constraints.as_ref()
    }

    /// Returns the condition: `principal constraint && (action constraint && (resource constraint && clause))`. A
    /// missing clause counts as `true`. The three `&&` nodes have the location of the body.
    pub fn condition(&self) -> Expr {
        let and =
            |left, right| Expr::and(left, right).with_maybe_source_loc(self.parts().loc.clone());
        let clause = self.non_scope_constraints().cloned();
        let rest = clause.unwrap_or_else(|| Expr::val(true));
        let rest = and(self.resource_constraint_expr(), rest);
        let rest = and(self.action_constraint_expr(), rest);
        and(self.principal_constraint_expr(), rest)
    }
}

impl fmt::Display for TemplateBody {
    fn fmt(&self, f: &mut fmt::Formatter<'_>) -> fmt::Result {
        let (annotations, effect) = (self.annotations_arc(), self.effect());
        let (principal, action, resource) = self.parts().scope();
        write!(
            f,
            "{annotations}{effect}(\n  {principal},\n  {action},\n  {resource}\n)"
        )?;
        match self.non_scope_constraints() {
            None => f.write_str(";"),
            Some(clause) => write!(f, " when {{\n  {clause}\n}};"),
        }
    }
}
