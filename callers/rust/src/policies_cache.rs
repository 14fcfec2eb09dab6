//! A cache of what was read from a set, from which references are returned until the set changes: ids in their order,
//! and the policies and templates that were requested.
use crate::error::Error;
use crate::policy::{Policy, PolicyID};
use crate::template::Template;
use std::cell::OnceCell;
use std::collections::HashMap;
use std::iter::Flatten;
use std::slice;
use std::sync::Arc;

/// Returns the value of a cell. Reads it with `init` if the cell is empty.
pub(crate) fn get_or_try_init<T>(
    cell: &OnceCell<T>,
    init: impl FnOnce() -> Result<T, Error>,
) -> Result<&T, Error> {
    match cell.get() {
        Some(item) => Ok(item),
        None => {
            let item = init()?;
            Ok(cell.get_or_init(|| item))
        }
    }
}

/// Items under ids, in insertion order. Each item is read when it is first requested.
pub(crate) struct Listed<T> {
    // `None` is the gap of a removed item. The number of gaps is at most the number of ids and `ALLOWED_GAPS`.
    ids: Vec<Option<PolicyID>>,
    items: Vec<OnceCell<T>>,
    places: HashMap<PolicyID, usize>,
}

/// An iterator over references to ids.
pub(crate) type Ids<'a> = Flatten<slice::Iter<'a, Option<PolicyID>>>;

// The number of gaps that are always accepted.
const ALLOWED_GAPS: usize = 32;

impl<T> Listed<T> {
    /// Creates a list with these ids, of which no item was read.
    pub(crate) fn of(ids: Vec<String>) -> Listed<T> {
        let mut listed = Listed {
            places: HashMap::with_capacity(ids.len()),
            ids: Vec::new(),
            items: Vec::new(),
        };
        for id in ids {
            listed.push(PolicyID::from_smolstr(id), OnceCell::new());
        }
        listed
    }

    /// Appends an item.
    pub(crate) fn push(&mut self, id: PolicyID, item: OnceCell<T>) {
        self.places.insert(id.clone(), self.ids.len());
        self.ids.push(Some(id));
        self.items.push(item);
    }

    /// Removes the item with this id, if there is one. Closes the gaps if there are too many of them.
    pub(crate) fn remove(&mut self, id: &PolicyID) {
        let Some(place) = self.places.remove(id) else {
            return;
        };
        self.ids[place] = None;
        self.items[place] = OnceCell::new();
        if self.ids.len() > 2 * self.places.len() + ALLOWED_GAPS {
            let ids = std::mem::take(&mut self.ids).into_iter();
            let items = std::mem::take(&mut self.items).into_iter();
            for (id, item) in ids.zip(items) {
                if let Some(id) = id {
                    self.push(id, item);
                }
            }
        }
    }

    /// Iterates over the ids.
    pub(crate) fn ids(&self) -> Ids<'_> {
        self.ids.iter().flatten()
    }

    /// Returns whether the list is empty.
    pub(crate) fn is_empty(&self) -> bool {
        self.places.is_empty()
    }

    /// Returns the cell of the item with this id, if there is one.
    pub(crate) fn at(&self, id: &PolicyID) -> Option<&OnceCell<T>> {
        self.places.get(id).map(|place| &self.items[*place])
    }

    // Clears the cell of the item with this id.
    fn forget(&mut self, id: &PolicyID) {
        if let Some(place) = self.places.get(id) {
            self.items[*place] = OnceCell::new();
        }
    }
}

/// The cache of a set.
pub(crate) struct SetCache {
    pub(crate) bodies: Listed<Arc<Template>>,
    pub(crate) policies: Listed<Policy>,
    pub(crate) links: Listed<Vec<PolicyID>>,
}

impl SetCache {
    /// Creates a cache with the ids of bodies and the ids of policies, of which no item was read.
    pub(crate) fn of(bodies: Vec<String>, policies: Vec<String>) -> SetCache {
        SetCache {
            links: Listed::of(bodies.clone()),
            bodies: Listed::of(bodies),
            policies: Listed::of(policies),
        }
    }

    /// Records a new body.
    pub(crate) fn push_body(&mut self, id: PolicyID) {
        self.links.push(id.clone(), OnceCell::new());
        self.bodies.push(id, OnceCell::new());
    }

    /// Records a new link.
    pub(crate) fn push_link(&mut self, id: PolicyID, link: Policy) {
        self.links.forget(link.template().id());
        self.policies.push(id, OnceCell::from(link));
    }

    /// Records that a policy was removed. The body of a static policy is removed with it.
    pub(crate) fn remove_policy(&mut self, policy: &Policy) {
        self.policies.remove(policy.id());
        match policy.is_static() {
            true => self.remove_body(policy.id()),
            false => self.links.forget(policy.template().id()),
        }
    }

    /// Records that a body was removed.
    pub(crate) fn remove_body(&mut self, id: &PolicyID) {
        self.bodies.remove(id);
        self.links.remove(id);
    }
}

/// The ids that a merge renamed, each with its new id, in the insertion order of the other set.
#[derive(Clone, Debug, Default, PartialEq, Eq)]
pub struct Renaming {
    pairs: Vec<(PolicyID, PolicyID)>,
}

impl Renaming {
    /// Creates a renaming from a list in which each old id is followed by its new id.
    pub(crate) fn of(ids: Vec<PolicyID>) -> Renaming {
        let mut ids = ids.into_iter();
        let mut pairs = Vec::new();
        while let (Some(old), Some(new)) = (ids.next(), ids.next()) {
            pairs.push((old, new));
        }
        Renaming { pairs }
    }

    /// Returns the number of renamed ids.
    pub fn len(&self) -> usize {
        self.pairs.len()
    }

    /// Returns whether no id was renamed.
    pub fn is_empty(&self) -> bool {
        self.pairs.is_empty()
    }

    /// Returns the new id of a renamed id.
    ///
    /// # Complexity
    ///
    /// O(n), where n is the number of renamed ids.
    pub fn get(&self, id: &PolicyID) -> Option<&PolicyID> {
        let mut pairs = self.pairs.iter();
        pairs.find(|(old, _)| old == id).map(|(_, new)| new)
    }

    /// Iterates over the pairs of an old and a new id.
    pub fn iter(&self) -> impl ExactSizeIterator<Item = (&PolicyID, &PolicyID)> {
        self.pairs.iter().map(|(old, new)| (old, new))
    }

    /// Iterates over the old ids.
    pub fn keys(&self) -> impl ExactSizeIterator<Item = &PolicyID> {
        self.pairs.iter().map(|(old, _)| old)
    }
}

// Returns references to both parts of a pair.
fn as_refs(pair: &(PolicyID, PolicyID)) -> (&PolicyID, &PolicyID) {
    (&pair.0, &pair.1)
}

impl<'a> IntoIterator for &'a Renaming {
    type Item = (&'a PolicyID, &'a PolicyID);
    type IntoIter = std::iter::Map<
        slice::Iter<'a, (PolicyID, PolicyID)>,
        fn(&'a (PolicyID, PolicyID)) -> (&'a PolicyID, &'a PolicyID),
    >;

    fn into_iter(self) -> Self::IntoIter {
        self.pairs.iter().map(as_refs)
    }
}

impl IntoIterator for Renaming {
    type Item = (PolicyID, PolicyID);
    type IntoIter = std::vec::IntoIter<(PolicyID, PolicyID)>;

    fn into_iter(self) -> Self::IntoIter {
        self.pairs.into_iter()
    }
}
