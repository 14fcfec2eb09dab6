//! A policy set as a collection of policies, and from its maps.
use crate::ast::{Policy, PolicyID, PolicySet, Template};
use crate::iters::{IntoPolicies, Policies};
use std::collections::HashSet;
use std::hash::BuildHasher;
use std::sync::Arc;

impl<S: BuildHasher + Clone> PolicySet<S> {
    /// Iterates over the static policies and the links, in insertion order. It is [`PolicySet::policies`].
    pub fn iter(&self) -> Policies<'_> {
        self.policies()
    }

    /// Returns the number of static policies and links. Templates do not count.
    ///
    /// ```
    /// use cedar_store::ast::{Effect, Expr, Policy, PolicyID, PolicySet};
    ///
    /// let allow = Policy::from_when_clause(Effect::Permit, Expr::val(true), PolicyID::from("allow"), None);
    /// let set = PolicySet::singleton(allow);
    /// assert_eq!((set.len(), set.contains(&PolicyID::from("allow"))), (1, true));
    /// assert!(!set.contains(&PolicyID::from("deny")));
    /// for policy in &set {
    ///     assert_eq!(policy.effect(), Effect::Permit);
    /// }
    /// ```
    pub fn len(&self) -> usize {
        self.policies().len()
    }

    /// Returns whether a static policy or a link has this id. It does not find a template.
    pub fn contains(&self, id: &PolicyID) -> bool {
        self.get(id).is_some()
    }
}

impl<'a, S: BuildHasher + Clone> IntoIterator for &'a PolicySet<S> {
    type Item = &'a Policy;
    type IntoIter = Policies<'a>;

    fn into_iter(self) -> Policies<'a> {
        self.policies()
    }
}

impl<S: BuildHasher + Clone> IntoIterator for PolicySet<S> {
    type Item = Policy;
    type IntoIter = IntoPolicies;

    /// Iterates over the static policies and the links, in insertion order. It is [`PolicySet::into_policies`].
    fn into_iter(self) -> IntoPolicies {
        self.into_policies()
    }
}

impl PolicySet {
    /// Creates a set from the entries of its three maps, in the order of the maps:
    ///
    /// - `templates` has the bodies of templates and of static policies, by their ids.
    /// - `links` has the policies, by their ids.
    /// - `template_to_links_map` has the ids of the policies that use each body, by the id of the body.
    ///
    /// The caller must ensure that the maps agree:
    ///
    /// - Each key of the first two maps is the id of its body or policy.
    /// - The body of each policy is in `templates`. A link has an id that no body has.
    /// - The third map has the id of each body, and lists exactly the policies that use it.
    ///
    /// Otherwise the set has a policy without its body, or a wrong list of links. A debug build panics for the second
    /// condition.
    ///
    /// # Complexity
    ///
    /// O(n) for n bodies and policies. The third map follows from the other two, and is dropped.
    ///
    /// # Differences from cedar-policy-core
    ///
    /// The original takes three linked maps. Here each parameter is any iterable of the entries, so a linked map fits.
    ///
    /// # Examples
    ///
    /// ```
    /// use cedar_store::ast::{Effect, Expr, Policy, PolicyID, PolicySet};
    ///
    /// let id = PolicyID::from_string("allow-all");
    /// let policy = Policy::from_when_clause(Effect::Permit, Expr::val(true), id.clone(), None);
    /// let set = PolicySet::from_raw_components(
    ///     [(id.clone(), policy.template_arc().clone())],
    ///     [(id.clone(), policy)],
    ///     [(id.clone(), [id.clone()])],
    /// );
    /// assert_eq!(set.get(&id).map(|policy| policy.effect()), Some(Effect::Permit));
    /// ```
    pub fn from_raw_components<L: IntoIterator<Item = PolicyID>>(
        templates: impl IntoIterator<Item = (PolicyID, Arc<Template>)>,
        links: impl IntoIterator<Item = (PolicyID, Policy)>,
        template_to_links_map: impl IntoIterator<Item = (PolicyID, L)>,
    ) -> Self {
        let policies: Vec<Policy> = links.into_iter().map(|(_, policy)| policy).collect();
        let mut set = Self::new();
        {
            let policy_ids: HashSet<&PolicyID> = policies.iter().map(Policy::id).collect();
            for (id, body) in templates {
                if policy_ids.contains(&id) {
                    set.maps.templates.insert(id, body);
                } else {
                    set.maps.insert_template(body);
                }
            }
        }
        for policy in policies {
            debug_assert!(
                set.maps.has_body(policy.template().id()),
                "the body of each policy must be among the templates"
            );
            set.maps.insert_policy(policy);
        }
        drop(template_to_links_map);
        set
    }
}
