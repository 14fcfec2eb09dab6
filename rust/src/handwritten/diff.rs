//! The difference of two stores, what an edit would change, and the text of a difference.
use crate::ast::{Entity, EntityUID};
use crate::cedar_entity_diff::{diff, would_change_by_add, would_change_by_remove, would_change_by_upsert};
use crate::entities::{AncestryChange, ContentChange, Entities, EntitiesError, StoreDiff, TCComputation};
use std::collections::{BTreeMap, BTreeSet};
use std::fmt;
use std::hash::BuildHasher;
use std::sync::Arc;

impl<S> Entities<S> {
    /// Iterates over the entities, without those that the other store has in the same place.
    pub(crate) fn iter_unshared<'a>(&'a self, other: &'a Self) -> impl Iterator<Item = &'a Entity> {
        let entries = self
            .entities
            .entries_unshared(&other.entities, |one, other| Arc::ptr_eq(&one.1.0, &other.1.0));
        entries.map(|(_, node)| &*node.0)
    }
}

impl<S: BuildHasher + Clone> Entities<S> {
    /// Returns the difference of this store and another:
    ///
    /// - the entities that only one store has
    /// - the entities that both have with different content
    /// - the ancestors gained and lost by the entities that both have
    /// - the mode of the other store, if it differs
    ///
    /// The difference is empty exactly if the stores are equal in all of these. Its text is like a unified diff.
    ///
    /// # Complexity
    ///
    /// Skips what both stores share, if one is a copy of the other that was edited (see [`Entities`]): for n entities it
    /// compares n / 128 pointers, and 128 more for each part that is not shared. Looks up every other entity of each
    /// store in the other, and compares the entities that both have. Sorts the uids of the entities that differ, looks
    /// each of them up a few times, and copies these entities.
    ///
    /// # Differences from cedar-policy-core
    ///
    /// The original has no such function.
    ///
    /// # Examples
    ///
    /// ```
    /// use cedar_store::ast::{Entity, EntityUID};
    /// use cedar_store::entities::{Entities, TCComputation::ComputeNow};
    ///
    /// let uid = |ty, eid| EntityUID::with_eid_and_type(ty, eid);
    /// let mut alice = Entity::with_uid(uid("User", "alice")?);
    /// alice.add_parent(uid("Group", "team")?);
    /// let old = Entities::from_entities([alice, Entity::with_uid(uid("Group", "team")?)], ComputeNow)?;
    /// let new = old.clone().remove_entities([uid("Group", "team")?], ComputeNow)?;
    ///
    /// let difference = old.diff(&new);
    /// assert_eq!(difference.removed()[0].uid(), &uid("Group", "team")?);
    /// assert!(difference.ancestry()[0].lost().eq([&uid("Group", "team")?]));
    /// assert_eq!(
    ///     difference.to_string(),
    ///     "-Group::\"team\"\n User::\"alice\"\n-  parent Group::\"team\"\n-  ancestor Group::\"team\"\n",
    /// );
    /// assert!(old.diff(&old).is_empty());
    /// # Ok::<(), Box<dyn std::error::Error>>(())
    /// ```
    #[must_use]
    pub fn diff(&self, other: &Self) -> StoreDiff {
        diff(self, other)
    }

    /// Returns the difference of this store and what [`Entities::add_entities`] of this list would leave. The store does
    /// not change.
    ///
    /// # Errors
    ///
    /// The errors of [`Entities::add_entities`].
    ///
    /// # Complexity
    ///
    /// Makes the edit on a copy, which shares its parts with the store, and compares both as [`Entities::diff`] does. So it
    /// costs as much as the edit, and for n entities n / 64 pointers in addition.
    ///
    /// # Differences from cedar-policy-core
    ///
    /// The original has no such function.
    ///
    /// # Examples
    ///
    /// ```
    /// use cedar_store::ast::{Entity, EntityUID};
    /// use cedar_store::entities::{Entities, TCComputation::ComputeNow};
    /// use std::sync::Arc;
    ///
    /// let uid = |ty, eid| EntityUID::with_eid_and_type(ty, eid);
    /// let mut alice = Entity::with_uid(uid("User", "alice")?);
    /// alice.add_parent(uid("Group", "team")?);
    /// let store = Entities::from_entities([alice], ComputeNow)?;
    /// let mut team = Entity::with_uid(uid("Group", "team")?);
    /// team.add_parent(uid("Group", "staff")?);
    ///
    /// let difference = store.would_change_by_add([Arc::new(team)], ComputeNow)?;
    /// assert_eq!(difference.added()[0].uid(), &uid("Group", "team")?);
    /// assert_eq!(difference.ancestry()[0].uid(), &uid("User", "alice")?);
    /// assert!(difference.ancestry()[0].gained().eq([&uid("Group", "staff")?]));
    /// assert_eq!(store.len(), 1);
    /// # Ok::<(), Box<dyn std::error::Error>>(())
    /// ```
    pub fn would_change_by_add(
        &self,
        list: impl IntoIterator<Item = Arc<Entity>>,
        tc_computation: TCComputation,
    ) -> Result<StoreDiff, EntitiesError> {
        would_change_by_add(self, list.into_iter().collect(), tc_computation)
    }

    /// Returns the difference of this store and what [`Entities::upsert_entities`] of this list would leave. The store
    /// does not change.
    ///
    /// # Errors
    ///
    /// The errors of [`Entities::upsert_entities`].
    ///
    /// # Complexity
    ///
    /// As [`Entities::would_change_by_add`].
    ///
    /// # Differences from cedar-policy-core
    ///
    /// The original has no such function.
    ///
    /// # Examples
    ///
    /// ```
    /// use cedar_store::ast::{Entity, EntityUID};
    /// use cedar_store::entities::{Entities, TCComputation::ComputeNow};
    /// use std::sync::Arc;
    ///
    /// let uid = |ty, eid| EntityUID::with_eid_and_type(ty, eid);
    /// let mut alice = Entity::with_uid(uid("User", "alice")?);
    /// let store = Entities::from_entities([alice.clone()], ComputeNow)?;
    /// alice.add_parent(uid("Group", "team")?);
    ///
    /// let difference = store.would_change_by_upsert([Arc::new(alice)], ComputeNow)?;
    /// assert!(difference.changed()[0].after().parents().eq([&uid("Group", "team")?]));
    /// assert_eq!(difference.changed()[0].before().parents().count(), 0);
    /// # Ok::<(), Box<dyn std::error::Error>>(())
    /// ```
    pub fn would_change_by_upsert(
        &self,
        list: impl IntoIterator<Item = Arc<Entity>>,
        tc_computation: TCComputation,
    ) -> Result<StoreDiff, EntitiesError> {
        would_change_by_upsert(self, list.into_iter().collect(), tc_computation)
    }

    /// Returns the difference of this store and what [`Entities::remove_entities`] of this list would leave. The store
    /// does not change.
    ///
    /// # Errors
    ///
    /// The errors of [`Entities::remove_entities`].
    ///
    /// # Complexity
    ///
    /// As [`Entities::would_change_by_add`].
    ///
    /// # Differences from cedar-policy-core
    ///
    /// The original has no such function.
    ///
    /// # Examples
    ///
    /// ```
    /// use cedar_store::ast::{Entity, EntityUID};
    /// use cedar_store::entities::{Entities, TCComputation::ComputeNow};
    ///
    /// let alice = EntityUID::with_eid_and_type("User", "alice")?;
    /// let store = Entities::from_entities([Entity::with_uid(alice.clone())], ComputeNow)?;
    /// let difference = store.would_change_by_remove([alice], ComputeNow)?;
    /// assert_eq!(difference.to_string(), "-User::\"alice\"\n");
    /// # Ok::<(), Box<dyn std::error::Error>>(())
    /// ```
    pub fn would_change_by_remove(
        &self,
        list: impl IntoIterator<Item = EntityUID>,
        tc_computation: TCComputation,
    ) -> Result<StoreDiff, EntitiesError> {
        would_change_by_remove(self, list.into_iter().collect(), tc_computation)
    }
}

/// What a difference has at a uid.
enum Found<'a> {
    Removed,
    Added,
    InBoth(Option<&'a ContentChange>, Option<&'a AncestryChange>),
}

/// Returns what a difference has at each uid, in ascending order.
fn found_in(diff: &StoreDiff) -> BTreeMap<&EntityUID, Found<'_>> {
    let mut found = BTreeMap::new();
    found.extend(diff.removed().iter().map(|entity| (entity.uid(), Found::Removed)));
    found.extend(diff.added().iter().map(|entity| (entity.uid(), Found::Added)));
    for change in diff.changed() {
        found.insert(change.after().uid(), Found::InBoth(Some(change), None));
    }
    for change in diff.ancestry() {
        let content = match found.get(change.uid()) {
            Some(Found::InBoth(content, _)) => *content,
            _ => None,
        };
        found.insert(change.uid(), Found::InBoth(content, Some(change)));
    }
    found
}

/// Returns a line for each attribute, tag and parent of an entity.
fn lines_of(entity: &Entity) -> BTreeSet<String> {
    let attrs = entity.attrs().map(|(key, value)| format!("attr {key:?}: {value}"));
    let tags = entity.tags().map(|(key, value)| format!("tag {key:?}: {value}"));
    let parents = entity.parents().map(|uid| {
        let also = if entity.is_indirect_descendant_of(uid) {
            " (also an indirect ancestor)"
        } else {
            ""
        };
        format!("parent {uid}{also}")
    });
    attrs.chain(tags).chain(parents).collect()
}

/// Writes the lines that only the entity before has, and then those that only the entity after has.
fn write_content(f: &mut fmt::Formatter<'_>, change: &ContentChange) -> fmt::Result {
    let (before, after) = (lines_of(change.before()), lines_of(change.after()));
    for line in before.difference(&after) {
        writeln!(f, "-  {line}")?;
    }
    for line in after.difference(&before) {
        writeln!(f, "+  {line}")?;
    }
    Ok(())
}

/// Writes the ancestors lost, and then the ancestors gained.
fn write_ancestry(f: &mut fmt::Formatter<'_>, change: &AncestryChange) -> fmt::Result {
    for uid in change.lost() {
        writeln!(f, "-  ancestor {uid}")?;
    }
    for uid in change.gained() {
        writeln!(f, "+  ancestor {uid}")?;
    }
    Ok(())
}

fn mode_name(partial: bool) -> &'static str {
    if partial { "partial store" } else { "concrete store" }
}

/// Writes lines like those of a unified diff. An empty difference has no line.
///
/// - If the mode differs: `-` and the old mode, `+` and the new mode.
/// - For each entity that only one store has: `-` or `+`, and its uid.
/// - For each other entity that differs: a blank and its uid. Then a line for each attribute, tag, parent and ancestor
///   that only one store has.
///
/// The entities are in ascending order of uid.
impl fmt::Display for StoreDiff {
    fn fmt(&self, f: &mut fmt::Formatter<'_>) -> fmt::Result {
        if let Some(partial) = self.partial() {
            writeln!(f, "-{}\n+{}", mode_name(!partial), mode_name(partial))?;
        }
        for (uid, found) in found_in(self) {
            match found {
                Found::Removed => writeln!(f, "-{uid}")?,
                Found::Added => writeln!(f, "+{uid}")?,
                Found::InBoth(content, ancestry) => {
                    writeln!(f, " {uid}")?;
                    content.map_or(Ok(()), |change| write_content(f, change))?;
                    ancestry.map_or(Ok(()), |change| write_ancestry(f, change))?;
                }
            }
        }
        Ok(())
    }
}
