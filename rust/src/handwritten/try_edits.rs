//! Edits of a store in place. After an error the store is as before.
use crate::ast::{Entity, EntityUID};
use crate::cedar_dry_run::{have_no_indirect, would_add, would_upsert};
use crate::entities::{Entities, EntitiesError, TCComputation};
use std::collections::{HashMap, HashSet};
use std::hash::BuildHasher;
use std::mem;
use std::sync::Arc;

impl<S: BuildHasher + Clone> Entities<S> {
    /// Adds entities to the store in place, as [`Entities::add_entities`] does. After an error the store is as before.
    ///
    /// # Errors
    ///
    /// The errors of [`Entities::add_entities`]. If the edit would create several cycles, the error may name another
    /// one.
    ///
    /// # Complexity
    ///
    /// At most about twice the cost of [`Entities::add_entities`], if all of these hold:
    ///
    /// - The store is known to be plain (see [`Entities`]).
    /// - The mode is `ComputeNow`.
    /// - No entity of the list has indirect ancestors.
    ///
    /// The call looks up the entities of the list and their parents then. Only if the edit may fail, it makes a dry run
    /// (see [`would_add`]), which reads all ancestors of the list. Otherwise it edits a copy of the store, which shares
    /// its entities.
    ///
    /// # Differences from cedar-policy-core
    ///
    /// The original has no such function.
    ///
    /// # Examples
    ///
    /// ```
    /// use cedar_store::ast::{Entity, EntityUID};
    /// use cedar_store::entities::{Entities, EntitiesError, TCComputation::ComputeNow};
    /// use std::sync::Arc;
    ///
    /// let uid = |eid| EntityUID::with_eid_and_type("Group", eid);
    /// let (staff, all) = (Arc::new(Entity::with_uid(uid("staff")?)), Arc::new(Entity::with_uid(uid("all")?)));
    /// let mut store = Entities::new();
    /// store.try_add_entities([staff, all], ComputeNow)?;
    ///
    /// let mut other = Entity::with_uid(uid("staff")?);
    /// other.add_parent(uid("all")?);
    /// let error = store.try_add_entities([Arc::new(other)], ComputeNow).unwrap_err();
    /// assert_eq!(error, EntitiesError::Duplicate(uid("staff")?));
    /// assert_eq!(store.len(), 2);
    /// # Ok::<(), Box<dyn std::error::Error>>(())
    /// ```
    pub fn try_add_entities(
        &mut self,
        list: impl IntoIterator<Item = Arc<Entity>>,
        tc_computation: TCComputation,
    ) -> Result<(), EntitiesError> {
        let list: Vec<_> = list.into_iter().collect();
        if !self.has_exact_dry_run(&list, tc_computation) {
            return self.edit_copy(|copy| copy.add_entities(list, tc_computation));
        }
        if !self.can_add(&list) {
            would_add(self, &list)?;
        }
        self.edit_in_place(|store| store.add_entities(list, tc_computation))
    }

    /// Overwrites entities of the store in place, as [`Entities::upsert_entities`] does. After an error the store is as
    /// before.
    ///
    /// # Errors
    ///
    /// The errors of [`Entities::upsert_entities`]. If the edit would create several cycles, the error may name another
    /// one.
    ///
    /// # Complexity
    ///
    /// As in [`Entities::try_add_entities`]. If no entity of the list changes its parents, the edit cannot fail.
    ///
    /// # Differences from cedar-policy-core
    ///
    /// The original has no such function.
    ///
    /// # Examples
    ///
    /// ```
    /// use cedar_store::ast::{Entity, EntityUID};
    /// use cedar_store::entities::{Entities, TCComputation::ComputeNow};
    /// use std::sync::Arc;
    ///
    /// let uid = |eid| EntityUID::with_eid_and_type("Group", eid);
    /// let member = |of| {
    ///     let mut staff = Entity::with_uid(uid("staff")?);
    ///     staff.add_parent(uid(of)?);
    ///     Ok::<_, Box<dyn std::error::Error>>(staff)
    /// };
    /// let mut store = Entities::from_entities([member("all")?], ComputeNow)?;
    ///
    /// // a group cannot be a member of itself
    /// assert!(store.try_upsert_entities([Arc::new(member("staff")?)], ComputeNow).is_err());
    /// assert!(store.stored(&uid("staff")?).is_some_and(|staff| staff.is_child_of(&uid("all").unwrap())));
    /// # Ok::<(), Box<dyn std::error::Error>>(())
    /// ```
    pub fn try_upsert_entities(
        &mut self,
        list: impl IntoIterator<Item = Arc<Entity>>,
        tc_computation: TCComputation,
    ) -> Result<(), EntitiesError> {
        let list: Vec<_> = list.into_iter().collect();
        if !self.has_exact_dry_run(&list, tc_computation) {
            return self.edit_copy(|copy| copy.upsert_entities(list, tc_computation));
        }
        if !self.keeps_parents(&list) && !self.stays_acyclic(&list) {
            would_upsert(self, &list)?;
        }
        self.edit_in_place(|store| store.upsert_entities(list, tc_computation))
    }

    /// Removes entities from the store in place, as [`Entities::remove_entities`] does. After an error the store is as
    /// before.
    ///
    /// # Errors
    ///
    /// The errors of [`Entities::remove_entities`]. In a plain store there is none (see [`Entities`]).
    ///
    /// # Complexity
    ///
    /// The cost of [`Entities::remove_entities`]. If the store is not known to be plain, the call edits a copy of the
    /// store, which shares its entities.
    ///
    /// # Differences from cedar-policy-core
    ///
    /// The original has no such function.
    ///
    /// # Examples
    ///
    /// ```
    /// use cedar_store::ast::{Entity, EntityUID};
    /// use cedar_store::entities::{Entities, TCComputation::ComputeNow};
    ///
    /// let uid = |eid| EntityUID::with_eid_and_type("Group", eid);
    /// let mut staff = Entity::with_uid(uid("staff")?);
    /// staff.add_parent(uid("all")?);
    /// let mut store = Entities::from_entities([staff, Entity::with_uid(uid("all")?)], ComputeNow)?;
    ///
    /// store.try_remove_entities([uid("all")?], ComputeNow)?;
    /// assert_eq!(store.len(), 1);
    /// assert_eq!(store.iter().map(|entity| entity.ancestors().len()).sum::<usize>(), 0);
    /// # Ok::<(), Box<dyn std::error::Error>>(())
    /// ```
    pub fn try_remove_entities(
        &mut self,
        list: impl IntoIterator<Item = EntityUID>,
        tc_computation: TCComputation,
    ) -> Result<(), EntitiesError> {
        let list: Vec<_> = list.into_iter().collect();
        if self.index.plain {
            self.edit_in_place(|store| store.remove_entities(list, tc_computation))
        } else {
            self.edit_copy(|copy| copy.remove_entities(list, tc_computation))
        }
    }

    /// Returns whether a dry run returns an error exactly if adding or overwriting the entities does.
    fn has_exact_dry_run(&self, list: &[Arc<Entity>], tc_computation: TCComputation) -> bool {
        self.index.plain && tc_computation == TCComputation::ComputeNow && have_no_indirect(list)
    }

    /// Returns `true` only if adding the entities cannot fail: their uids are new or their entities are equal, and no
    /// cycle is possible. If the result is `false`, a dry run decides.
    fn can_add(&self, list: &[Arc<Entity>]) -> bool {
        let is_free = |entity: &Arc<Entity>| self.stored(entity.uid()).is_none_or(|stored| stored.deep_eq(entity));
        let uids = || list.iter().map(|entity| entity.uid()).collect::<HashSet<_>>();
        list.iter().all(is_free) && (list.len() < 2 || uids().len() == list.len()) && self.stays_acyclic(list)
    }

    /// Returns `true` only if adding or overwriting the entities creates no cycle. If the result is `false`, a dry run
    /// decides.
    ///
    /// A new cycle contains an entity of the list. From there it leads to a parent of this entity, and over entities
    /// that do not change to the next entity of the list. So it is also a cycle of the graph of [`Entities::arcs_of`].
    fn stays_acyclic(&self, list: &[Arc<Entity>]) -> bool {
        if let [entity] = list {
            let uid = entity.uid();
            let leads_back = |stored: &Entity| stored.is_descendant_of(uid);
            return !entity
                .parents()
                .any(|parent| parent == uid || self.stored(parent).is_some_and(leads_back));
        }
        let numbers = list
            .iter()
            .enumerate()
            .map(|(number, entity)| (entity.uid(), number))
            .collect();
        let arcs: Vec<_> = list.iter().map(|entity| self.arcs_of(entity, &numbers)).collect();
        is_acyclic(&arcs)
    }

    /// Returns the numbers of the entities of the list to which an entity leads: its parents, and the ancestors of its
    /// stored parents.
    fn arcs_of(&self, entity: &Entity, numbers: &HashMap<&EntityUID, usize>) -> Vec<usize> {
        let mut arcs = Vec::new();
        for parent in entity.parents() {
            if let Some(number) = numbers.get(parent) {
                arcs.push(*number);
            } else if let Some(stored) = self.stored(parent) {
                if numbers.len() < stored.ancestors().len() {
                    let above = numbers.iter().filter(|(uid, _)| stored.is_descendant_of(uid));
                    arcs.extend(above.map(|(_, number)| *number));
                } else {
                    arcs.extend(stored.ancestors().filter_map(|uid| numbers.get(uid)));
                }
            }
        }
        arcs
    }

    /// Returns whether the store has an entity with the uid and the parents of each entity of the list.
    fn keeps_parents(&self, list: &[Arc<Entity>]) -> bool {
        list.iter().all(|entity| {
            self.stored(entity.uid())
                .is_some_and(|stored| stored.has_same_parents(entity))
        })
    }

    /// Makes an edit of a copy, which replaces the store if there is no error.
    fn edit_copy(&mut self, edit: impl FnOnce(Self) -> Result<Self, EntitiesError>) -> Result<(), EntitiesError> {
        *self = edit(self.clone())?;
        Ok(())
    }

    /// Makes an edit that cannot fail. The store is moved into it and back, and nothing is copied.
    fn edit_in_place(&mut self, edit: impl FnOnce(Self) -> Result<Self, EntitiesError>) -> Result<(), EntitiesError> {
        let empty = Entities::with_hasher(self.hasher().clone());
        *self = edit(mem::replace(self, empty))?;
        Ok(())
    }
}

/// Returns whether a graph has no cycle. `arcs` has the numbers to which each number leads.
fn is_acyclic(arcs: &[Vec<usize>]) -> bool {
    let mut incoming = vec![0; arcs.len()];
    for number in arcs.iter().flatten() {
        incoming[*number] += 1;
    }
    // numbers to which no number leads any more are removed, until none is left
    let mut free: Vec<usize> = (0..arcs.len()).filter(|number| incoming[*number] == 0).collect();
    let mut removed = 0;
    while let Some(number) = free.pop() {
        removed += 1;
        for next in &arcs[number] {
            incoming[*next] -= 1;
            if incoming[*next] == 0 {
                free.push(*next);
            }
        }
    }
    removed == arcs.len()
}
