//! Policies: static policies, and links of templates.
use crate::action::ActionConstraint;
use crate::annotation::{Annotation, Annotations, Iter};
use crate::errors::ParseErrors;
use crate::expr::Expr;
use crate::name::{escaped, AnyId, Loc};
use crate::scope::{PrincipalConstraint, ResourceConstraint};
use crate::slots::{SlotEnv, SlotId};
use crate::template::{StaticPolicy, Template};
use crate::uid::EntityUID;
use std::collections::hash_map::RandomState;
use std::collections::HashSet;
use std::fmt;
use std::hash::BuildHasher;
use std::sync::Arc;

/// The effect of a policy.
#[derive(Clone, Copy, Debug, PartialEq, Eq, PartialOrd, Ord, Hash)]
pub enum Effect {
    /// The policy permits.
    Permit,
    /// The policy forbids.
    Forbid,
}

impl fmt::Display for Effect {
    fn fmt(&self, f: &mut fmt::Formatter<'_>) -> fmt::Result {
        f.write_str(match self {
            Effect::Permit => "permit",
            Effect::Forbid => "forbid",
        })
    }
}

/// The id of a policy or a template. It can be any text.
///
/// ```
/// use cedar_store_proved::ast::PolicyID;
/// assert_eq!(PolicyID::from_string("a b").to_string(), "a b");
/// ```
#[derive(Clone, Debug, PartialEq, Eq, PartialOrd, Ord, Hash)]
pub struct PolicyID {
    text: String,
}

impl PolicyID {
    /// Creates an id from a text.
    pub fn from_string(text: impl AsRef<str>) -> PolicyID {
        PolicyID::from_smolstr(text.as_ref().to_owned())
    }

    /// Creates an id from a text, without copying it.
    pub fn from_smolstr(id: String) -> PolicyID {
        PolicyID { text: id }
    }

    /// Returns the text.
    pub fn into_smolstr(self) -> String {
        self.text
    }
}

impl From<&str> for PolicyID {
    fn from(text: &str) -> PolicyID {
        PolicyID::from_string(text)
    }
}

impl From<String> for PolicyID {
    fn from(text: String) -> PolicyID {
        PolicyID { text }
    }
}

impl AsRef<str> for PolicyID {
    fn as_ref(&self) -> &str {
        &self.text
    }
}

impl fmt::Display for PolicyID {
    fn fmt(&self, f: &mut fmt::Formatter<'_>) -> fmt::Result {
        f.pad(&escaped(&self.text))
    }
}

/// A static policy, or a link of a template: a shared template, the id of a link, and the bindings of the slots.
/// Equality ignores locations. A policy that was read from a set does not change when the set changes.
///
/// `Display` writes a static policy as its body. It writes a link as the id of its template and its bindings.
///
/// ```
/// use cedar_store_proved::ast::{Effect, Expr, Policy, PolicyID, PolicySet};
/// let policy = Policy::from_when_clause(Effect::Forbid, Expr::val(false), PolicyID::from_string("p"), None);
/// let mut set = PolicySet::new();
/// set.add(policy.clone()).unwrap();
/// assert_eq!(set.get(policy.id()), Some(&policy));
/// assert_eq!(set.remove_static(&PolicyID::from_string("p")).unwrap(), policy);
/// ```
#[derive(Clone, Debug, PartialEq, Eq)]
pub struct Policy {
    template: Arc<Template>,
    // The id of a link. `None` for a static policy.
    link: Option<PolicyID>,
    values: SlotEnv,
}

impl Policy {
    /// Creates a policy from its parts. The caller must ensure that they match.
    pub(crate) fn of(template: Arc<Template>, link: Option<PolicyID>, values: SlotEnv) -> Policy {
        Policy {
            template,
            link,
            values,
        }
    }

    /// Creates a policy from a static policy.
    pub fn from_static(policy: StaticPolicy) -> Policy {
        Template::link_static_policy(policy).1
    }

    /// Creates a static policy with this effect, clause and id. It has no annotations, and its scope constraints allow
    /// any request. The caller must ensure that the clause contains no slot. A set returns an error for such a policy.
    ///
    /// # Panics
    ///
    /// Panics in a debug build if the clause contains a slot.
    pub fn from_when_clause(effect: Effect, when: Expr, id: PolicyID, loc: Option<Loc>) -> Policy {
        let annotations = Arc::new(Annotations::new());
        Policy::from_when_clause_annos(effect, Arc::new(when), id, loc, annotations)
    }

    /// Creates a static policy with this effect, clause, id and annotations. Its scope constraints allow any request.
    /// The caller must ensure that the clause contains no slot.
    ///
    /// # Panics
    ///
    /// Panics in a debug build if the clause contains a slot.
    pub fn from_when_clause_annos(
        effect: Effect,
        when: Arc<Expr>,
        id: PolicyID,
        loc: Option<Loc>,
        annotations: Arc<Annotations>,
    ) -> Policy {
        debug_assert!(
            when.slots().is_empty(),
            "the clause of a static policy must not contain a slot"
        );
        let template = Template::new_shared(
            id,
            loc,
            annotations,
            effect,
            PrincipalConstraint::any(),
            ActionConstraint::any(),
            ResourceConstraint::any(),
            Some(when),
        );
        Policy::of(Arc::new(template), None, SlotEnv::new())
    }

    /// Returns the id: the link's id, or the template's id for a static policy.
    pub fn id(&self) -> &PolicyID {
        self.link.as_ref().unwrap_or(self.template.id())
    }

    /// Returns the template. For a static policy, this is its body.
    pub fn template(&self) -> &Template {
        &self.template
    }

    /// Returns the shared template.
    pub fn template_arc(&self) -> &Arc<Template> {
        &self.template
    }

    /// Returns the effect of the template.
    pub fn effect(&self) -> Effect {
        self.template.effect()
    }

    /// Returns the annotation of the template with this key, if there is one.
    pub fn annotation(&self, key: &AnyId) -> Option<&Annotation> {
        self.template.annotation(key)
    }

    /// Iterates over the annotations of the template with their keys, in ascending order of the keys.
    pub fn annotations(&self) -> Iter<'_> {
        self.template.annotations()
    }

    /// Returns the shared annotations of the template.
    pub fn annotations_arc(&self) -> &Arc<Annotations> {
        self.template.annotations_arc()
    }

    // Returns the uid that is bound to a slot.
    fn bound(&self, id: SlotId) -> Option<Arc<EntityUID>> {
        self.values.get(&id).cloned().map(Arc::new)
    }

    /// Returns the template's constraint on the principal, with the bound uid in place of the slot.
    pub fn principal_constraint(&self) -> PrincipalConstraint {
        let constraint = self.template.principal_constraint().clone();
        match self.bound(SlotId::Principal) {
            None => constraint,
            Some(uid) => constraint.with_filled_slot(uid),
        }
    }

    /// Returns the template's constraint on the action, with the bound uid in place of the slot.
    pub fn action_constraint(&self) -> ActionConstraint {
        let constraint = self.template.action_constraint().clone();
        match self.bound(SlotId::Action) {
            None => constraint,
            Some(uid) => constraint.with_filled_slot(uid),
        }
    }

    /// Returns the template's constraint on the resource, with the bound uid in place of the slot.
    pub fn resource_constraint(&self) -> ResourceConstraint {
        let constraint = self.template.resource_constraint().clone();
        match self.bound(SlotId::Resource) {
            None => constraint,
            Some(uid) => constraint.with_filled_slot(uid),
        }
    }

    /// Returns the clause of the template, if there is one. Its slots are unfilled.
    pub fn non_scope_constraints(&self) -> Option<&Expr> {
        self.template.non_scope_constraints()
    }

    /// Returns the shared clause of the template, if there is one.
    pub fn non_scope_constraints_arc(&self) -> Option<&Arc<Expr>> {
        self.template.non_scope_constraints_arc()
    }

    /// Returns the condition of the template. Its slots are unfilled.
    pub fn condition(&self) -> Expr {
        self.template.condition()
    }

    /// Returns the bindings. A static policy has none.
    pub fn env(&self) -> &SlotEnv {
        &self.values
    }

    /// Copies the policy, with another id. A link gets the new id and shares its template. For a static policy, the
    /// template gets the new id.
    pub fn new_id(&self, id: PolicyID) -> Policy {
        let values = self.values.clone();
        match self.is_static() {
            true => Policy::of(Arc::new(self.template.new_id(id)), None, values),
            false => Policy::of(self.template.clone(), Some(id), values),
        }
    }

    /// Returns the same link, with another id for its template. Returns `None` for a static policy.
    pub fn new_template_id(self, id: PolicyID) -> Option<Policy> {
        self.link.as_ref()?;
        let template = Arc::new(self.template.new_id(id));
        Some(Policy { template, ..self })
    }

    /// Returns the location of the whole template, if it is known. The C library does not store locations, so a policy
    /// that is read from a set has none.
    pub fn loc(&self) -> Option<&Loc> {
        self.template.loc()
    }

    /// Returns whether the policy is a static policy and not a link.
    pub fn is_static(&self) -> bool {
        self.link.is_none()
    }

    /// Returns the template, the id of the link, if it is one, and the bindings.
    pub fn into_components(self) -> (Arc<Template>, Option<PolicyID>, SlotEnv) {
        (self.template, self.link, self.values)
    }

    /// Returns the uids of the unknown entities in the condition. An unknown counts if it has an entity type and its
    /// name is the text of a uid. Calls the library once for each such unknown.
    ///
    /// # Panics
    ///
    /// Panics if an allocation fails.
    pub fn unknown_entities(&self) -> HashSet<EntityUID> {
        self.unknown_entities_with_hasher(RandomState::new())
    }

    /// Returns the uids of the unknown entities in the condition, as [`Policy::unknown_entities`] does. The set uses
    /// the given builder of hashers.
    ///
    /// # Panics
    ///
    /// Panics if an allocation fails.
    pub fn unknown_entities_with_hasher<S: BuildHasher>(&self, hasher: S) -> HashSet<EntityUID, S> {
        let mut uids = HashSet::with_hasher(hasher);
        let condition = self.condition();
        let unknowns = condition.unknowns().into_iter();
        for unknown in unknowns.filter(|unknown| unknown.type_annotation.is_some()) {
            match EntityUID::from_normalized_str(&unknown.name) {
                Err(ParseErrors::Other(error)) => panic!("cannot allocate a uid: {error}"),
                read => uids.extend(read),
            }
        }
        uids
    }
}

impl From<StaticPolicy> for Policy {
    fn from(policy: StaticPolicy) -> Policy {
        Policy::from_static(policy)
    }
}

impl fmt::Display for Policy {
    fn fmt(&self, f: &mut fmt::Formatter<'_>) -> fmt::Result {
        if self.is_static() {
            return write!(f, "{}", self.template);
        }
        let bound = |id: &SlotId| self.values.get(id).map(|uid| format!("{id} -> {uid}"));
        let bound: Vec<String> = SlotId::ALL.iter().filter_map(bound).collect();
        let (id, bound) = (self.template.id(), bound.join(","));
        write!(f, "Template Instance of {id}, slots: [{bound}]")
    }
}
/// The slots of a template that is added to a set.
#[derive(Clone, Copy, Debug, Default, PartialEq, Eq, Hash)]
pub struct Slots {
    /// Whether the template has the principal's slot.
    pub principal: bool,
    /// Whether the template has the action's slot.
    pub action: bool,
    /// Whether the template has the resource's slot.
    pub resource: bool,
}

impl Slots {
    /// Returns no slots.
    pub const fn none() -> Slots {
        Slots {
            principal: false,
            action: false,
            resource: false,
        }
    }

    /// Returns all three slots.
    pub const fn all() -> Slots {
        Slots {
            principal: true,
            action: true,
            resource: true,
        }
    }

    /// Returns only the principal's slot.
    pub const fn principal() -> Slots {
        Slots {
            principal: true,
            ..Slots::none()
        }
    }

    /// Returns only the action's slot.
    pub const fn action() -> Slots {
        Slots {
            action: true,
            ..Slots::none()
        }
    }

    /// Returns only the resource's slot.
    pub const fn resource() -> Slots {
        Slots {
            resource: true,
            ..Slots::none()
        }
    }

    /// Encodes the slots as a bit sum.
    pub(crate) fn number(self) -> u32 {
        u32::from(self.principal) + 2 * u32::from(self.action) + 4 * u32::from(self.resource)
    }

    /// Decodes a bit sum.
    pub(crate) fn of(number: u32) -> Slots {
        Slots {
            principal: number & 1 != 0,
            action: number & 2 != 0,
            resource: number & 4 != 0,
        }
    }
}
