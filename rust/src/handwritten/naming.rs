//! The policies and templates of a set that name a uid.
use crate::ast::{EntityUID, Policy, PolicySet, Template};
use crate::cedar_naming::{policies_naming, policy_names, template_names, templates_naming};
use std::hash::BuildHasher;
use std::vec;

impl<S: BuildHasher + Clone> PolicySet<S> {
    /// Iterates over the policies, static policies and links, that name a uid, in the order of the set.
    ///
    /// A policy names a uid if its scope constraints, its bindings or its clause contain it. Unknowns that represent an
    /// entity are not looked at; see [`Policy::unknown_entities`]. So before an entity is removed, an administrator knows
    /// which policies will mean something else.
    ///
    /// # Complexity
    ///
    /// Visits each policy once, and each node of its clause.
    ///
    /// # Differences from cedar-policy-core
    ///
    /// The original has no such function.
    ///
    /// # Examples
    ///
    /// ```
    /// use cedar_store::ast::{
    ///     ActionConstraint, Annotations, Effect, EntityUID, PolicyID, PolicySet, PrincipalConstraint,
    ///     ResourceConstraint, SlotEnv, SlotId, Template,
    /// };
    ///
    /// let [alice, bob] = ["User::\"alice\"", "User::\"bob\""].map(|text| text.parse::<EntityUID>().expect("a uid"));
    /// let (owner, link) = (PolicyID::from_string("owner"), PolicyID::from_string("alice-owns"));
    /// let (principal, action, resource) =
    ///     (PrincipalConstraint::is_eq_slot(), ActionConstraint::any(), ResourceConstraint::any());
    /// let template = Template::new(
    ///     owner.clone(), None, Annotations::new(), Effect::Permit, principal, action, resource, None,
    /// );
    /// let mut policies = PolicySet::new();
    /// policies.add_template(template)?;
    /// policies.link(owner, link, SlotEnv::from([(SlotId::principal(), alice.clone())]))?;
    ///
    /// assert_eq!(policies.naming(&alice).next().map(|policy| policy.id().to_string()), Some("alice-owns".into()));
    /// assert_eq!(policies.naming(&bob).next(), None);
    /// # Ok::<(), Box<dyn std::error::Error>>(())
    /// ```
    pub fn naming(&self, uid: &EntityUID) -> vec::IntoIter<&Policy> {
        policies_naming(self, uid).into_iter()
    }

    /// Iterates over the templates that name a uid in their scope constraints or their clause, with or without links, in
    /// the order of the set. A static policy is not a template. See [`PolicySet::naming`].
    ///
    /// # Differences from cedar-policy-core
    ///
    /// The original has no such function.
    pub fn templates_naming(&self, uid: &EntityUID) -> vec::IntoIter<&Template> {
        templates_naming(self, uid).into_iter()
    }
}

impl Policy {
    /// Returns whether the policy names a uid: whether its scope constraints, its bindings or its clause contain it. See
    /// [`PolicySet::naming`].
    ///
    /// # Differences from cedar-policy-core
    ///
    /// The original has no such function.
    #[must_use]
    pub fn names(&self, uid: &EntityUID) -> bool {
        policy_names(self, uid)
    }
}

impl Template {
    /// Returns whether the template names a uid: whether its scope constraints or its clause contain it. See
    /// [`PolicySet::naming`].
    ///
    /// # Differences from cedar-policy-core
    ///
    /// The original has no such function.
    #[must_use]
    pub fn names(&self, uid: &EntityUID) -> bool {
        template_names(self, uid)
    }
}
