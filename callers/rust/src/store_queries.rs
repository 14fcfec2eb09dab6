//! Queries of a store over its parents: who is below a uid, and why. Each is one call of the library, and two more that
//! copy the result.
use crate::error::Error;
use crate::stored::Entities;
use crate::stored_entity::MEMORY;
use crate::uid::{EntityType, EntityUID};
use std::vec;

impl Entities {
    /// Iterates over the descendants of a uid: the uids of all entities of the store that reach it over one or more
    /// parents, each once, in ascending order.
    ///
    /// Only the parents that the entities have now count. An indirect ancestor without parents that lead to it has no
    /// effect. A uid on a cycle of parents is its own descendant. The store need not have an entity for `uid`.
    ///
    /// # Panics
    ///
    /// Panics if an allocation fails.
    ///
    /// # Complexity
    ///
    /// Looks `uid` up in each entity. A store that was built only with `ComputeNow` lists its children after some
    /// edits. From then on the call searches down from `uid`. In a store that another mode made, the call reads each
    /// parent of each entity.
    ///
    /// ```
    /// use cedar_store_proved::ast::{Entity, EntityUID};
    /// use cedar_store_proved::entities::{Entities, TCComputation};
    /// let uid = |text| EntityUID::from_normalized_str(text).unwrap();
    /// let (alice, team, staff) = (uid(r#"User::"alice""#), uid(r#"Group::"team""#), uid(r#"Group::"staff""#));
    /// let entities = [
    ///     Entity::with_uid(alice.clone()).with_parent(team.clone()),
    ///     Entity::with_uid(team.clone()).with_parent(staff.clone()),
    /// ];
    /// let store = Entities::from_entities(entities, TCComputation::ComputeNow).unwrap();
    /// assert!(store.descendants(&staff).eq([&team, &alice]));
    /// assert!(store.descendants_of_type(&staff, alice.entity_type()).eq([&alice]));
    /// assert_eq!(store.path(&alice, &staff).unwrap(), [&alice, &team, &staff]);
    /// assert!(store.path(&staff, &alice).is_none() && !store.reaches(&staff, &alice));
    /// ```
    pub fn descendants(&self, uid: &EntityUID) -> vec::IntoIter<EntityUID> {
        let result = self.result_uids(self.handle.descendants(uid.as_str()));
        result.expect(MEMORY).into_iter()
    }

    /// Iterates over the descendants of a uid that have a type, as [`Entities::descendants`] does.
    ///
    /// # Panics
    ///
    /// Panics if an allocation fails.
    pub fn descendants_of_type(
        &self,
        uid: &EntityUID,
        ty: &EntityType,
    ) -> vec::IntoIter<EntityUID> {
        let status = self
            .handle
            .descendants_of_type(uid.as_str(), ty.name().as_str());
        self.result_uids(status).expect(MEMORY).into_iter()
    }

    /// Returns a shortest path over parents from one uid to another: a list that begins with `from` and ends with `to`,
    /// in which each uid is a parent of the one before. Returns `None` if there is no such path.
    ///
    /// A path has at least one step. So the path from a uid to itself is `None`, unless the uid is on a cycle of
    /// parents. In a store that was built only with `ComputeNow`, a path exists exactly to an ancestor. In other stores,
    /// an ancestor without a path is an indirect ancestor that the parents do not explain. If several paths are
    /// shortest, the result is one of them. Neither uid needs an entity in the store.
    ///
    /// # Panics
    ///
    /// Panics if an allocation fails.
    ///
    /// # Complexity
    ///
    /// Searches over parents, layer by layer, up to the distance of `to`, and visits each uid once. In a store that was
    /// built only with `ComputeNow`, the search visits only uids that have `to` as an ancestor.
    pub fn path(&self, from: &EntityUID, to: &EntityUID) -> Option<Vec<EntityUID>> {
        self.try_path(from, to).expect(MEMORY)
    }

    fn try_path(&self, from: &EntityUID, to: &EntityUID) -> Result<Option<Vec<EntityUID>>, Error> {
        let (status, has) = self.handle.path(from.as_str(), to.as_str());
        let uids = self.result_uids(status)?;
        Ok(has.then_some(uids))
    }

    /// Returns whether a uid reaches another over one or more parents.
    ///
    /// If `to` is an ancestor of the entity `from` and the result is `false`, the parents do not explain the ancestor:
    /// it is an indirect ancestor that the store was given.
    ///
    /// # Panics
    ///
    /// Panics if an allocation fails.
    ///
    /// # Complexity
    ///
    /// One lookup in a store that was built only with `ComputeNow`. Otherwise as [`Entities::path`].
    pub fn reaches(&self, from: &EntityUID, to: &EntityUID) -> bool {
        let result = self.handle.reaches(from.as_str(), to.as_str());
        self.value_if_ok(result).expect(MEMORY)
    }
}
