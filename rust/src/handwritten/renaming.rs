//! The renamed ids of a merge, as an iterator over pairs.
use crate::ast::PolicyID;
use crate::cedar_keyed_hash::KeyedState;
use crate::ordered_map::{OrderedMap, Pairs};
use std::hash::BuildHasher;
use std::iter::FusedIterator;
use std::ops::Index;
use std::vec;

/// The ids that a merge renamed, each with its new id, in the insertion order of the other set.
///
/// ```
/// use cedar_store::Renaming;
/// use cedar_store::ast::{Effect, Expr, Policy, PolicyID, PolicySet};
///
/// let one = |clause| {
///     let (clause, id) = (Expr::val(clause), PolicyID::from_string("p"));
///     PolicySet::singleton(Policy::from_when_clause(Effect::Permit, clause, id, None))
/// };
/// let renaming: Renaming = one(true).merge_policyset(&one(false), true)?;
/// let (p, fresh) = (PolicyID::from_string("p"), PolicyID::from_string("policy0"));
/// assert_eq!((renaming.len(), renaming.is_empty()), (1, false));
/// assert_eq!(renaming.iter().collect::<Vec<_>>(), [(&p, &fresh)]);
/// assert!(renaming.keys().eq([&p]) && renaming.values().eq([&fresh]));
/// assert_eq!((renaming.get(&p), &renaming[&p]), (Some(&fresh), &fresh));
/// assert!(renaming.contains_key(&p) && !renaming.contains_key(&fresh));
/// # Ok::<(), cedar_store::ast::PolicySetError>(())
/// ```
#[derive(Clone, Debug)]
pub struct Renaming<S = KeyedState> {
    ids: OrderedMap<PolicyID, PolicyID, S>,
}

impl<S> Renaming<S> {
    pub(crate) fn of(ids: OrderedMap<PolicyID, PolicyID, S>) -> Self {
        Renaming { ids }
    }

    /// Returns the number of renamed ids.
    pub fn len(&self) -> usize {
        self.ids.len()
    }

    /// Returns whether no id was renamed.
    pub fn is_empty(&self) -> bool {
        self.ids.is_empty()
    }

    /// Iterates over the pairs of an old and a new id, in order.
    pub fn iter(&self) -> RenamedIds<'_> {
        RenamedIds { pairs: self.ids.iter() }
    }

    /// Iterates over the old ids, in order.
    pub fn keys(&self) -> impl DoubleEndedIterator<Item = &PolicyID> + ExactSizeIterator + FusedIterator + Clone {
        self.iter().map(|(id, _)| id)
    }

    /// Iterates over the new ids, in the order of the old ids.
    pub fn values(&self) -> impl DoubleEndedIterator<Item = &PolicyID> + ExactSizeIterator + FusedIterator + Clone {
        self.iter().map(|(_, fresh)| fresh)
    }
}

impl<S: BuildHasher> Renaming<S> {
    /// Returns the new id of a renamed id.
    pub fn get(&self, id: &PolicyID) -> Option<&PolicyID> {
        self.ids.get(id)
    }

    /// Returns whether an id was renamed.
    pub fn contains_key(&self, id: &PolicyID) -> bool {
        self.get(id).is_some()
    }
}

impl<S: BuildHasher> Index<&PolicyID> for Renaming<S> {
    type Output = PolicyID;

    /// Returns the new id of a renamed id.
    ///
    /// # Panics
    ///
    /// The id was not renamed. [`Renaming::get`] returns `None` then.
    fn index(&self, id: &PolicyID) -> &PolicyID {
        self.get(id).expect("the id was not renamed")
    }
}

impl<'a, S> IntoIterator for &'a Renaming<S> {
    type Item = (&'a PolicyID, &'a PolicyID);
    type IntoIter = RenamedIds<'a>;

    fn into_iter(self) -> RenamedIds<'a> {
        self.iter()
    }
}

impl<S> IntoIterator for Renaming<S> {
    type Item = (PolicyID, PolicyID);
    type IntoIter = vec::IntoIter<(PolicyID, PolicyID)>;

    fn into_iter(self) -> Self::IntoIter {
        self.ids.into_iter().collect::<Vec<_>>().into_iter()
    }
}

impl<S> PartialEq for Renaming<S> {
    fn eq(&self, other: &Self) -> bool {
        self.iter().eq(other.iter())
    }
}

impl<S> Eq for Renaming<S> {}

/// The iterator over the pairs of a [`Renaming`].
#[derive(Clone, Debug)]
pub struct RenamedIds<'a> {
    pairs: Pairs<'a, PolicyID, PolicyID>,
}

impl<'a> Iterator for RenamedIds<'a> {
    type Item = (&'a PolicyID, &'a PolicyID);

    fn next(&mut self) -> Option<Self::Item> {
        self.pairs.next()
    }

    fn size_hint(&self) -> (usize, Option<usize>) {
        self.pairs.size_hint()
    }
}

impl DoubleEndedIterator for RenamedIds<'_> {
    fn next_back(&mut self) -> Option<Self::Item> {
        self.pairs.next_back()
    }
}

impl ExactSizeIterator for RenamedIds<'_> {}

impl FusedIterator for RenamedIds<'_> {}
