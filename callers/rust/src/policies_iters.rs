//! Iterators over the policies, bodies and links of a set, in insertion order.
use crate::policies_cache::Ids;
use crate::policy::{Policy, PolicyID};
use crate::policy_set::PolicySet;
use crate::template::Template;
use std::slice;
use std::vec;

/// An iterator over the static policies and links of a set, in insertion order. Each policy is read when the iterator
/// reaches it.
#[derive(Clone, Debug)]
pub struct Policies<'a> {
    pub(crate) set: &'a PolicySet,
    pub(crate) ids: Ids<'a>,
}

impl<'a> Iterator for Policies<'a> {
    type Item = &'a Policy;

    fn next(&mut self) -> Option<&'a Policy> {
        self.ids.next().and_then(|id| self.set.get(id))
    }
}

/// An iterator over the static policies of a set, in insertion order.
#[derive(Clone, Debug)]
pub struct StaticPolicies<'a>(pub(crate) Policies<'a>);

impl<'a> Iterator for StaticPolicies<'a> {
    type Item = &'a Policy;

    fn next(&mut self) -> Option<&'a Policy> {
        self.0.find(|policy| policy.is_static())
    }
}

/// An iterator over the policies of a consumed set, in insertion order.
#[derive(Clone, Debug)]
pub struct IntoPolicies(pub(crate) vec::IntoIter<Policy>);

impl Iterator for IntoPolicies {
    type Item = Policy;

    fn next(&mut self) -> Option<Policy> {
        self.0.next()
    }

    fn size_hint(&self) -> (usize, Option<usize>) {
        self.0.size_hint()
    }
}

/// An iterator over the bodies of all static policies and templates of a set, in insertion order. Each body is read
/// when the iterator reaches it.
#[derive(Clone, Debug)]
pub struct AllTemplates<'a> {
    pub(crate) set: &'a PolicySet,
    pub(crate) ids: Ids<'a>,
}

impl<'a> Iterator for AllTemplates<'a> {
    type Item = &'a Template;

    fn next(&mut self) -> Option<&'a Template> {
        self.ids.next().and_then(|id| self.set.get_template(id))
    }
}

/// An iterator over the templates of a set that have slots, in insertion order.
#[derive(Clone, Debug)]
pub struct Templates<'a>(pub(crate) AllTemplates<'a>);

impl<'a> Iterator for Templates<'a> {
    type Item = &'a Template;

    fn next(&mut self) -> Option<&'a Template> {
        self.0.find(|template| !template.is_static())
    }
}

/// An iterator over the ids of the policies of a template, in insertion order.
#[derive(Clone, Debug)]
pub struct LinkedIds<'a>(pub(crate) slice::Iter<'a, PolicyID>);

impl<'a> Iterator for LinkedIds<'a> {
    type Item = &'a PolicyID;

    fn next(&mut self) -> Option<&'a PolicyID> {
        self.0.next()
    }

    fn size_hint(&self) -> (usize, Option<usize>) {
        self.0.size_hint()
    }
}
