//! Queries of a store: who is below a uid, and why.
use crate::ast::{EntityType, EntityUID};
use crate::cedar_entities::SharedUid;
use crate::cedar_queries::{descendants, descendants_of_type, path, reaches};
use crate::entities::Entities;
use std::hash::BuildHasher;
use std::vec;

impl<S: BuildHasher + Clone> Entities<S> {
    /// Iterates over the descendants of a uid: the uids of all entities of the store that reach it over one or more
    /// parents, each once, in ascending order.
    ///
    /// Only the parents that the entities have now count. An indirect ancestor without parents that lead to it has no
    /// effect. A uid on a cycle of parents is its own descendant. The store need not have an entity for `uid`.
    ///
    /// # Complexity
    ///
    /// If the store lists its children (see [`Entities`]), the search costs O(m log m), where m is the number of
    /// descendants. If the store is known to be plain, the call looks `uid` up in each entity once. Otherwise it reads
    /// each parent of each entity once. Each result is looked up once.
    ///
    /// # Differences from cedar-policy-core
    ///
    /// The original has no such function.
    ///
    /// # Examples
    ///
    /// ```
    /// use cedar_store::ast::{Entity, EntityUID};
    /// use cedar_store::entities::{Entities, TCComputation};
    ///
    /// let (alice, team, staff) = ("User::\"alice\"".parse()?, "Group::\"team\"".parse()?, "Group::\"staff\"".parse()?);
    /// let mut member = Entity::with_uid(EntityUID::clone(&alice));
    /// member.add_parent(EntityUID::clone(&team));
    /// let mut group = Entity::with_uid(EntityUID::clone(&team));
    /// group.add_parent(EntityUID::clone(&staff));
    /// let store = Entities::from_entities([member, group], TCComputation::ComputeNow)?;
    ///
    /// assert!(store.descendants(&staff).eq([&team, &alice]));
    /// # Ok::<(), Box<dyn std::error::Error>>(())
    /// ```
    pub fn descendants(&self, uid: &EntityUID) -> vec::IntoIter<&EntityUID> {
        self.uids_of(descendants(self, uid)).into_iter()
    }

    /// Iterates over the descendants of a uid that have a type, as [`Entities::descendants`] does.
    ///
    /// # Differences from cedar-policy-core
    ///
    /// The original has no such function.
    ///
    /// # Examples
    ///
    /// ```
    /// use cedar_store::ast::{Entity, EntityUID};
    /// use cedar_store::entities::{Entities, TCComputation};
    ///
    /// let (alice, team, staff) = ("User::\"alice\"".parse()?, "Group::\"team\"".parse()?, "Group::\"staff\"".parse()?);
    /// let mut member = Entity::with_uid(EntityUID::clone(&alice));
    /// member.add_parent(EntityUID::clone(&team));
    /// let mut group = Entity::with_uid(EntityUID::clone(&team));
    /// group.add_parent(EntityUID::clone(&staff));
    /// let store = Entities::from_entities([member, group], TCComputation::ComputeNow)?;
    ///
    /// assert!(store.descendants_of_type(&staff, alice.entity_type()).eq([&alice]));
    /// # Ok::<(), Box<dyn std::error::Error>>(())
    /// ```
    pub fn descendants_of_type(&self, uid: &EntityUID, ty: &EntityType) -> vec::IntoIter<&EntityUID> {
        self.uids_of(descendants_of_type(self, uid, ty)).into_iter()
    }

    // Returns the uids of the stored entities with these uids.
    fn uids_of(&self, uids: Vec<SharedUid>) -> Vec<&EntityUID> {
        uids.iter()
            .map(|uid| {
                self.stored(uid.uid())
                    .expect("only the end of a path may not be stored")
                    .uid()
            })
            .collect()
    }

    /// Returns a shortest path over parents from one uid to another: a list that begins with `from` and ends with `to`,
    /// in which each uid is a parent of the one before. Returns `None` if there is no such path.
    ///
    /// A path has at least one step. So the path from a uid to itself is `None`, unless the uid is on a cycle of parents.
    /// In a plain store, a path exists exactly to an ancestor. In other stores, an ancestor without a path is an indirect
    /// ancestor that the parents do not explain (see [`Entities::reaches`]). If several paths are shortest, the result is
    /// one of them.
    ///
    /// # Complexity
    ///
    /// Searches over parents, layer by layer, up to the distance of `to`, and visits each uid once. If the store is known
    /// to be plain (see [`Entities`]), the search visits only uids that have `to` as an ancestor.
    ///
    /// # Differences from cedar-policy-core
    ///
    /// The original has no such function.
    ///
    /// # Examples
    ///
    /// ```
    /// use cedar_store::ast::{Entity, EntityUID};
    /// use cedar_store::entities::{Entities, TCComputation};
    ///
    /// let (alice, team, staff) = ("User::\"alice\"".parse()?, "Group::\"team\"".parse()?, "Group::\"staff\"".parse()?);
    /// let mut member = Entity::with_uid(EntityUID::clone(&alice));
    /// member.add_parent(EntityUID::clone(&team));
    /// let mut group = Entity::with_uid(EntityUID::clone(&team));
    /// group.add_parent(EntityUID::clone(&staff));
    /// let store = Entities::from_entities([member, group], TCComputation::ComputeNow)?;
    ///
    /// assert_eq!(store.path(&alice, &staff).unwrap(), [&alice, &team, &staff]);
    /// assert!(store.path(&staff, &alice).is_none());
    /// # Ok::<(), Box<dyn std::error::Error>>(())
    /// ```
    pub fn path<'a>(&'a self, from: &EntityUID, to: &'a EntityUID) -> Option<Vec<&'a EntityUID>> {
        let mut found = path(self, from, to)?;
        found.pop();
        let mut uids = self.uids_of(found);
        uids.push(to);
        Some(uids)
    }

    /// Returns whether a uid reaches another over one or more parents.
    ///
    /// If `to` is an ancestor of the entity `from` and the result is `false`, the parents do not explain the ancestor:
    /// it is an indirect ancestor that the store was given.
    ///
    /// # Complexity
    ///
    /// One lookup if the store is known to be plain (see [`Entities`]). Otherwise as [`Entities::path`].
    ///
    /// # Differences from cedar-policy-core
    ///
    /// The original has no such function.
    ///
    /// # Examples
    ///
    /// ```
    /// use cedar_store::ast::{Entity, EntityUID};
    /// use cedar_store::entities::{Entities, TCComputation};
    ///
    /// let (alice, team, staff) = ("User::\"alice\"".parse()?, "Group::\"team\"".parse()?, "Group::\"staff\"".parse()?);
    /// let mut member = Entity::with_uid(EntityUID::clone(&alice));
    /// member.add_parent(EntityUID::clone(&team));
    /// member.add_indirect_ancestor(EntityUID::clone(&staff));
    /// let store = Entities::from_entities([member], TCComputation::AssumeAlreadyComputed)?;
    ///
    /// assert!(store.reaches(&alice, &team));
    /// assert!(!store.reaches(&alice, &staff));
    /// # Ok::<(), Box<dyn std::error::Error>>(())
    /// ```
    pub fn reaches(&self, from: &EntityUID, to: &EntityUID) -> bool {
        reaches(self, from, to)
    }
}
