//! The policies and templates of a set that name a uid. The calls on a set are calls of the library. The calls on a
//! policy or a template inspect its parts here.
use crate::expr::ExprNode;
use crate::policy::{Policy, PolicyID};
use crate::policy_set::{expect_allocated, PolicySet};
use crate::scope::PrincipalOrResourceConstraint;
use crate::template::Template;
use crate::uid::EntityUID;
use crate::value::Literal;
use std::vec;

impl PolicySet {
    /// Iterates over the policies, static policies and links, that name a uid, in the order of the set.
    ///
    /// A policy names a uid if its scope constraints, its bindings or its clause contain it. Unknowns that represent an
    /// entity are not looked at; see [`PolicySet::unknown_entities`]. So before an entity is removed, an administrator
    /// knows which policies will mean something else.
    ///
    /// # Panics
    ///
    /// Panics if an allocation fails.
    ///
    /// # Complexity
    ///
    /// One call of the library visits each policy once, and each node of its clause. Then each policy of the result is
    /// read, unless it was read before.
    ///
    /// ```
    /// use cedar_store_proved::{Effect, EntityUID, PolicySet, SlotEnv, SlotId, Slots};
    /// let [alice, bob] = ["alice", "bob"].map(|id| EntityUID::with_eid_and_type("User", id).unwrap());
    /// let mut set = PolicySet::new();
    /// set.bind_template("owner", Effect::Permit, Slots::principal()).unwrap();
    /// set.link("owner", "alice-owns", SlotEnv::from([(SlotId::principal(), alice.clone())])).unwrap();
    /// assert!(set.naming(&alice).map(|policy| policy.id().to_string()).eq(["alice-owns"]));
    /// assert_eq!(set.naming(&bob).next(), None);
    /// ```
    pub fn naming(&self, uid: &EntityUID) -> vec::IntoIter<&Policy> {
        self.bound_to(self.handle.naming(uid.as_str()), PolicySet::get)
    }

    /// Iterates over the templates that name a uid in their scope constraints or their clause, with or without links, in
    /// the order of the set. A body without slots is not a template. See [`PolicySet::naming`].
    ///
    /// # Panics
    ///
    /// Panics if an allocation fails.
    pub fn templates_naming(&self, uid: &EntityUID) -> vec::IntoIter<&Template> {
        self.bound_to(
            self.handle.templates_naming(uid.as_str()),
            PolicySet::get_template,
        )
    }

    // Returns the items to which the ids of the last result are bound.
    fn bound_to<'a, T>(
        &'a self,
        status: u32,
        get: impl Fn(&'a PolicySet, &PolicyID) -> Option<&'a T>,
    ) -> vec::IntoIter<&'a T> {
        let ids = expect_allocated(self.result_texts(status));
        let items: Vec<&T> = ids
            .into_iter()
            .map(|id| get(self, &PolicyID::from_smolstr(id)).expect("the library lists bound ids"))
            .collect();
        items.into_iter()
    }
}

impl Template {
    /// Returns whether the template names a uid: whether its scope constraints or its clause contain it. See
    /// [`PolicySet::naming`].
    pub fn names(&self, uid: &EntityUID) -> bool {
        let in_constraint = |constraint: &PrincipalOrResourceConstraint| {
            constraint.get_euid().is_some_and(|one| **one == *uid)
        };
        let is_uid = |node| matches!(node, ExprNode::Val(Literal::EntityUID(one)) if **one == *uid);
        in_constraint(self.principal_constraint().as_inner())
            || self.action_constraint().iter_euids().any(|one| one == uid)
            || in_constraint(self.resource_constraint().as_inner())
            || self.non_scope_constraints().is_some_and(|clause| {
                let mut nodes = clause.subexpressions().into_iter();
                nodes.any(|expr| is_uid(expr.node()))
            })
    }
}

impl Policy {
    /// Returns whether the policy names a uid: whether its scope constraints, its bindings or its clause contain it.
    /// See [`PolicySet::naming`].
    pub fn names(&self, uid: &EntityUID) -> bool {
        self.env().values().any(|bound| bound == uid) || self.template().names(uid)
    }
}
