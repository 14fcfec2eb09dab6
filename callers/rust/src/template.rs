//! Templates, which are bodies with or without slots, and static policies, which are bodies without slots.
use crate::action::ActionConstraint;
use crate::annotation::{Annotation, Annotations, Iter};
use crate::body::TemplateBody;
use crate::errors::LinkingError;
use crate::expr::Expr;
use crate::invalid::{TemplateValidationError, UnexpectedSlotError};
use crate::name::{AnyId, Loc};
use crate::policy::{Effect, Policy, PolicyID};
use crate::scope::{PrincipalConstraint, ResourceConstraint};
use crate::slots::{Slot, SlotEnv, SlotId};
use std::fmt;
use std::hash::{Hash, Hasher};
use std::slice;
use std::sync::Arc;

// Defines the methods of templates and static policies that forward to the body.
macro_rules! delegate_to_body {
    ($kind:ident) => {
        impl $kind {
            /// Returns the id.
            pub fn id(&self) -> &PolicyID {
                self.body.id()
            }

            /// Returns the location of the whole policy, if it is known. The C library does not store locations, so an
            /// item that is read from a set has none.
            pub fn loc(&self) -> Option<&Loc> {
                self.body.loc()
            }

            /// Returns the effect.
            pub fn effect(&self) -> Effect {
                self.body.effect()
            }

            /// Returns the annotation with this key, if there is one.
            pub fn annotation(&self, key: &AnyId) -> Option<&Annotation> {
                self.body.annotation(key)
            }

            /// Iterates over the annotations with their keys, in ascending order of the keys.
            pub fn annotations(&self) -> Iter<'_> {
                self.body.annotations()
            }

            /// Returns the constraint on the principal.
            pub fn principal_constraint(&self) -> &PrincipalConstraint {
                self.body.principal_constraint()
            }

            /// Returns the constraint on the action.
            pub fn action_constraint(&self) -> &ActionConstraint {
                self.body.action_constraint()
            }

            /// Returns the constraint on the resource.
            pub fn resource_constraint(&self) -> &ResourceConstraint {
                self.body.resource_constraint()
            }

            /// Returns the clause, if there is one.
            pub fn non_scope_constraints(&self) -> Option<&Expr> {
                self.body.non_scope_constraints()
            }

            /// Returns the condition; see [`TemplateBody::condition`].
            pub fn condition(&self) -> Expr {
                self.body.condition()
            }
        }

        impl From<$kind> for TemplateBody {
            fn from(of: $kind) -> TemplateBody {
                of.body
            }
        }

        impl PartialEq for $kind {
            fn eq(&self, other: &$kind) -> bool {
                self.body == other.body
            }
        }

        impl Eq for $kind {}

        impl Hash for $kind {
            fn hash<H: Hasher>(&self, state: &mut H) {
                self.body.hash(state);
            }
        }

        impl fmt::Display for $kind {
            fn fmt(&self, f: &mut fmt::Formatter<'_>) -> fmt::Result {
                self.body.fmt(f)
            }
        }
    };
}

/// A template: a body with the slots of its condition. A template without slots represents a static policy.
///
/// Equality and hash use the body and ignore locations. `Display` writes the body.
///
/// ```
/// use cedar_store_proved::ast::*;
/// let template = Template::new(
///     PolicyID::from_string("t"),
///     None,
///     Annotations::new(),
///     Effect::Permit,
///     PrincipalConstraint::any(),
///     ActionConstraint::is_eq_slot(),
///     ResourceConstraint::is_in_slot(),
///     None,
/// );
/// assert!(template.slots().map(|slot| slot.id).eq([SlotId::resource(), SlotId::action()]));
/// assert!(StaticPolicy::try_from(template).is_err());
/// ```
#[derive(Clone, Debug)]
pub struct Template {
    body: TemplateBody,
    slots: Vec<Slot>,
}

delegate_to_body!(Template);

impl Template {
    /// Creates a template from its parts.
    pub fn new(
        id: PolicyID,
        loc: Option<Loc>,
        annotations: Annotations,
        effect: Effect,
        principal_constraint: PrincipalConstraint,
        action_constraint: ActionConstraint,
        resource_constraint: ResourceConstraint,
        non_scope_constraint: Option<Expr>,
    ) -> Template {
        Template::from_body(TemplateBody::new(
            id,
            loc,
            annotations,
            effect,
            principal_constraint,
            action_constraint,
            resource_constraint,
            non_scope_constraint,
        ))
    }

    /// Creates a template from its parts, with annotations and a clause that are already shared.
    pub fn new_shared(
        id: PolicyID,
        loc: Option<Loc>,
        annotations: Arc<Annotations>,
        effect: Effect,
        principal_constraint: PrincipalConstraint,
        action_constraint: ActionConstraint,
        resource_constraint: ResourceConstraint,
        non_scope_constraint: Option<Arc<Expr>>,
    ) -> Template {
        Template::from_body(TemplateBody::new_shared(
            id,
            loc,
            annotations,
            effect,
            principal_constraint,
            action_constraint,
            resource_constraint,
            non_scope_constraint,
        ))
    }

    /// Creates a template with this body.
    pub fn from_body(body: TemplateBody) -> Template {
        let slots = slots_in(&body);
        Template { body, slots }
    }

    /// Does nothing, as in `cedar-store`: the invariant cannot be violated.
    pub fn check_invariant(&self) {}

    /// Copies the template, with another id.
    pub fn new_id(&self, id: PolicyID) -> Template {
        Template {
            body: self.body.new_id(id),
            slots: self.slots.clone(),
        }
    }

    /// Returns the body.
    pub(crate) fn body(&self) -> &TemplateBody {
        &self.body
    }

    /// Returns the shared annotations.
    pub fn annotations_arc(&self) -> &Arc<Annotations> {
        self.body.annotations_arc()
    }

    /// Returns the shared clause, if there is one.
    pub fn non_scope_constraints_arc(&self) -> Option<&Arc<Expr>> {
        self.body.non_scope_constraints_arc()
    }

    /// Iterates over all occurrences of slots in the condition. The slots of the clause are first, in the order of
    /// [`Expr::slots`]. Then follow the slots of the resource, the action and the principal.
    pub fn slots(&self) -> Slots<'_> {
        Slots(self.slots.iter())
    }

    /// Returns whether the template has no slots, so that it represents a static policy.
    pub fn is_static(&self) -> bool {
        self.slots.is_empty()
    }

    /// Checks whether bindings match a template: whether the bound ids are the ids of its slots, and the action's slot
    /// is bound to an action.
    ///
    /// # Errors
    ///
    /// The checks are made in this order:
    ///
    /// - `ArityError`: the bound ids are not the ids of the slots. The error contains each occurrence of a slot that is
    ///   not bound, and the bound ids that are not slots.
    /// - `NotAnAction`: the action's slot is bound to a uid that is not an action.
    pub fn check_binding(template: &Template, values: &SlotEnv) -> Result<(), LinkingError> {
        let ids = || template.slots().map(|slot| slot.id);
        let unbound_values: Vec<SlotId> = ids().filter(|id| !values.contains_key(id)).collect();
        let is_extra = |id: &SlotId| values.contains_key(id) && !ids().any(|slot| slot == *id);
        let extra_values: Vec<SlotId> = SlotId::ALL.into_iter().filter(is_extra).collect();
        if !unbound_values.is_empty() || !extra_values.is_empty() {
            return Err(LinkingError::ArityError {
                unbound_values,
                extra_values,
            });
        }
        match values.get(&SlotId::Action) {
            Some(uid) if !uid.is_action() => Err(LinkingError::NotAnAction { uid: uid.clone() }),
            _ => Ok(()),
        }
    }

    /// Creates a link of a template, with this id and these bindings. The link is not in a set: add it with
    /// [`PolicySet::add`](crate::ast::PolicySet::add).
    ///
    /// # Errors
    ///
    /// - `ArityError` or `NotAnAction`: the bindings do not match the template; see [`Template::check_binding`].
    ///
    /// ```
    /// use cedar_store_proved::ast::*;
    /// use std::sync::Arc;
    /// let template = Arc::new(Template::new(
    ///     PolicyID::from_string("t"),
    ///     None,
    ///     Annotations::new(),
    ///     Effect::Permit,
    ///     PrincipalConstraint::is_in_slot(),
    ///     ActionConstraint::any(),
    ///     ResourceConstraint::any(),
    ///     None,
    /// ));
    /// let staff = EntityUID::from_normalized_str(r#"Group::"staff""#).unwrap();
    /// let bound = SlotEnv::from([(SlotId::principal(), staff)]);
    /// let link = Template::link(template.clone(), PolicyID::from_string("l"), bound).unwrap();
    /// assert_eq!(link.principal_constraint().to_string(), r#"principal in Group::"staff""#);
    /// assert!(Template::link(template, PolicyID::from_string("l"), SlotEnv::new()).is_err());
    /// ```
    pub fn link(
        template: Arc<Template>,
        new_id: PolicyID,
        values: SlotEnv,
    ) -> Result<Policy, LinkingError> {
        Template::check_binding(&template, &values)?;
        Ok(Policy::of(template, Some(new_id), values))
    }

    /// Creates the static policy of a template without slots.
    ///
    /// # Errors
    ///
    /// - `ArityError`: the template has slots. The error contains each occurrence of a slot.
    pub fn try_as_policy(template: Arc<Template>) -> Result<Policy, LinkingError> {
        let no_bindings = SlotEnv::new();
        Template::check_binding(&template, &no_bindings)?;
        Ok(Policy::of(template, None, no_bindings))
    }

    /// Returns the template of a static policy, and the policy of this template. Both have the id of the static policy.
    pub fn link_static_policy(policy: StaticPolicy) -> (Arc<Template>, Policy) {
        let template = Arc::new(Template::from_body(policy.body));
        let policy = Policy::of(template.clone(), None, SlotEnv::new());
        (template, policy)
    }

    /// Returns the template itself if a parser could have produced it.
    ///
    /// # Errors
    ///
    /// The checks are made in this order:
    ///
    /// - `SlotsInConditionClause`: the clause contains a slot. The error contains the first one.
    /// - `InvalidActionType`: the action constraint has uids that are not actions. The error contains them.
    /// - `InvalidExpression`: the clause calls an unknown function. The error names the first one.
    pub fn try_validate(self) -> Result<Template, TemplateValidationError> {
        self.check()?;
        Ok(self)
    }

    /// Returns the error of [`Template::try_validate`], if there is one.
    pub(crate) fn check(&self) -> Result<(), TemplateValidationError> {
        let clause = self.non_scope_constraints();
        let slots = clause.map(Expr::slots).unwrap_or_default();
        if let Some(slot) = slots.into_iter().next() {
            return Err(TemplateValidationError::SlotsInConditionClause(slot));
        }
        self.action_constraint().check_action_types()?;
        Ok(clause.map_or(Ok(()), Expr::try_validate)?)
    }
}

impl From<TemplateBody> for Template {
    fn from(body: TemplateBody) -> Template {
        Template::from_body(body)
    }
}

impl From<StaticPolicy> for Arc<Template> {
    fn from(policy: StaticPolicy) -> Arc<Template> {
        Template::link_static_policy(policy).0
    }
}

// Returns the slots of the condition of a body, without creating the condition.
fn slots_in(body: &TemplateBody) -> Vec<Slot> {
    let clause = body.non_scope_constraints();
    let mut slots = clause.map(Expr::slots).unwrap_or_default();
    let of_scope = [
        (
            SlotId::Resource,
            body.resource_constraint().as_inner().slot(),
        ),
        (SlotId::Action, body.action_constraint().slot()),
        (
            SlotId::Principal,
            body.principal_constraint().as_inner().slot(),
        ),
    ];
    slots.extend(of_scope.into_iter().filter_map(|(id, loc)| {
        let loc = loc?.clone();
        Some(Slot { id, loc })
    }));
    slots
}

/// An iterator over the slots of a template.
#[derive(Clone, Debug)]
pub struct Slots<'a>(slice::Iter<'a, Slot>);

impl<'a> Iterator for Slots<'a> {
    type Item = &'a Slot;

    fn next(&mut self) -> Option<&'a Slot> {
        self.0.next()
    }

    fn size_hint(&self) -> (usize, Option<usize>) {
        self.0.size_hint()
    }
}

/// A static policy: a body without slots. Equality and hash use the body and ignore locations. `Display` writes the
/// body.
///
/// ```
/// use cedar_store_proved::ast::*;
/// let any = |clause| {
///     StaticPolicy::new(
///         PolicyID::from_string("p"),
///         None,
///         Annotations::new(),
///         Effect::Forbid,
///         PrincipalConstraint::any(),
///         ActionConstraint::any(),
///         ResourceConstraint::any(),
///         clause,
///     )
/// };
/// assert_eq!(any(None).unwrap().to_string(), "forbid(\n  principal,\n  action,\n  resource\n);");
/// let error = any(Some(Expr::slot(SlotId::resource()))).unwrap_err();
/// assert_eq!(error.to_string(), "found slot `?resource` where slots are not allowed");
/// ```
#[derive(Clone, Debug)]
pub struct StaticPolicy {
    body: TemplateBody,
}

delegate_to_body!(StaticPolicy);

impl StaticPolicy {
    /// Creates a static policy from its parts.
    ///
    /// # Errors
    ///
    /// - `FoundSlot`: the parts contain a slot. The error contains the first one, in the order of [`Template::slots`].
    pub fn new(
        id: PolicyID,
        loc: Option<Loc>,
        annotations: Annotations,
        effect: Effect,
        principal_constraint: PrincipalConstraint,
        action_constraint: ActionConstraint,
        resource_constraint: ResourceConstraint,
        non_scope_constraints: Option<Expr>,
    ) -> Result<StaticPolicy, UnexpectedSlotError> {
        StaticPolicy::try_from(Template::new(
            id,
            loc,
            annotations,
            effect,
            principal_constraint,
            action_constraint,
            resource_constraint,
            non_scope_constraints,
        ))
    }

    /// Copies the static policy, with another id.
    pub fn new_id(&self, id: PolicyID) -> StaticPolicy {
        StaticPolicy {
            body: self.body.new_id(id),
        }
    }

    /// Returns the body.
    pub(crate) fn body(&self) -> &TemplateBody {
        &self.body
    }

    /// Returns the constraint on the principal as an expression.
    pub fn principal_constraint_expr(&self) -> Expr {
        self.body.principal_constraint_expr()
    }

    /// Returns the constraint on the action as an expression.
    pub fn action_constraint_expr(&self) -> Expr {
        self.body.action_constraint_expr()
    }

    /// Returns the constraint on the resource as an expression.
    pub fn resource_constraint_expr(&self) -> Expr {
        self.body.resource_constraint_expr()
    }
}

/// Converts a template without slots to a static policy. Fails with `FoundSlot` if the template has a slot, and reports
/// the first one.
impl TryFrom<Template> for StaticPolicy {
    type Error = UnexpectedSlotError;

    fn try_from(template: Template) -> Result<StaticPolicy, UnexpectedSlotError> {
        match template.slots.into_iter().next() {
            Some(slot) => Err(UnexpectedSlotError::FoundSlot(slot)),
            None => Ok(StaticPolicy {
                body: template.body,
            }),
        }
    }
}
