//! Entities, as they are passed to a store and read from a store.
use crate::errors::EntitiesError;
use crate::slots::{StaticType, StaticallyTyped};
use crate::stored::{Entities, TCComputation};
use crate::uid::EntityUID;
use crate::value::PartialValue;
use std::collections::{btree_map, btree_set, BTreeMap, BTreeSet, HashSet};
use std::fmt;
use std::hash::{Hash, Hasher};
use std::iter::Chain;

/// An entity: a uid with attributes, tags, parents and indirect ancestors.
///
/// `==` and the hash use only the uid. [`Entity::deep_eq`] also compares the attributes, the tags and the ancestors, but
/// not which ancestors are parents. An entity is plain data until it is added to a store: only [`Entity::validate`]
/// calls the library. A uid that is both a parent and an indirect ancestor is passed to the library only as a parent.
///
/// ```
/// use cedar_store_proved::ast::{Entity, EntityUID, PartialValue, Value};
/// let uid = |text| EntityUID::from_normalized_str(text).unwrap();
/// let alice = Entity::with_uid(uid(r#"User::"alice""#))
///     .with_parent(uid(r#"Group::"staff""#))
///     .with_attr("age", Value::from(41))
///     .with_tag("team", Value::from("blue"));
/// assert_eq!(alice.get("age"), Some(&PartialValue::from(Value::from(41))));
/// assert!(alice.is_child_of(&uid(r#"Group::"staff""#)) && alice.get_tag("age").is_none());
/// ```
#[derive(Clone, Debug)]
pub struct Entity {
    uid: EntityUID,
    attrs: BTreeMap<String, PartialValue>,
    indirect_ancestors: BTreeSet<EntityUID>,
    parents: BTreeSet<EntityUID>,
    tags: BTreeMap<String, PartialValue>,
}

impl Entity {
    /// Creates an entity with these attributes, tags, indirect ancestors and parents. If several pairs have the same
    /// key, the last one is used. Does not check whether parents and indirect ancestors are disjoint.
    pub fn new_with_attr_partial_value(
        uid: EntityUID,
        attrs: impl IntoIterator<Item = (String, PartialValue)>,
        indirect_ancestors: HashSet<EntityUID>,
        parents: HashSet<EntityUID>,
        tags: impl IntoIterator<Item = (String, PartialValue)>,
    ) -> Entity {
        Entity {
            uid,
            attrs: attrs.into_iter().collect(),
            indirect_ancestors: indirect_ancestors.into_iter().collect(),
            parents: parents.into_iter().collect(),
            tags: tags.into_iter().collect(),
        }
    }

    /// Creates an entity with this uid and no other content.
    pub fn with_uid(uid: EntityUID) -> Entity {
        Entity {
            uid,
            attrs: BTreeMap::new(),
            indirect_ancestors: BTreeSet::new(),
            parents: BTreeSet::new(),
            tags: BTreeMap::new(),
        }
    }

    /// Returns the entity with an additional parent.
    pub fn with_parent(mut self, parent: EntityUID) -> Entity {
        self.add_parent(parent);
        self
    }

    /// Returns the entity with additional parents.
    pub fn with_parents(mut self, parents: impl IntoIterator<Item = EntityUID>) -> Entity {
        self.extend(parents);
        self
    }

    /// Returns the entity with this attribute. Replaces an existing attribute with the same key.
    pub fn with_attr(mut self, key: impl Into<String>, value: impl Into<PartialValue>) -> Entity {
        self.attrs.insert(key.into(), value.into());
        self
    }

    /// Returns the entity with this tag. Replaces an existing tag with the same key.
    pub fn with_tag(mut self, key: impl Into<String>, value: impl Into<PartialValue>) -> Entity {
        self.tags.insert(key.into(), value.into());
        self
    }

    /// Returns the uid.
    pub fn uid(&self) -> &EntityUID {
        &self.uid
    }

    /// Returns the attribute with this key, if there is one.
    pub fn get(&self, key: &str) -> Option<&PartialValue> {
        self.attrs.get(key)
    }

    /// Returns the tag with this key, if there is one.
    pub fn get_tag(&self, key: &str) -> Option<&PartialValue> {
        self.tags.get(key)
    }

    /// Returns the number of attributes.
    pub fn attrs_len(&self) -> usize {
        self.attrs.len()
    }

    /// Returns the number of tags.
    pub fn tags_len(&self) -> usize {
        self.tags.len()
    }

    /// Returns whether a uid is a parent.
    pub fn is_child_of(&self, other: &EntityUID) -> bool {
        self.parents.contains(other)
    }

    /// Returns whether a uid is an indirect ancestor.
    pub fn is_indirect_descendant_of(&self, other: &EntityUID) -> bool {
        self.indirect_ancestors.contains(other)
    }

    /// Returns whether a uid is a parent or an indirect ancestor.
    pub fn is_descendant_of(&self, other: &EntityUID) -> bool {
        self.is_child_of(other) || self.is_indirect_descendant_of(other)
    }

    /// Iterates over the keys of the attributes, in byte order.
    pub fn keys(&self) -> Keys<'_> {
        Keys(self.attrs.keys())
    }

    /// Iterates over the keys of the tags, in byte order.
    pub fn tag_keys(&self) -> Keys<'_> {
        Keys(self.tags.keys())
    }

    /// Iterates over the attributes with their keys, in byte order of the keys.
    pub fn attrs(&self) -> Pairs<'_> {
        Pairs(self.attrs.iter())
    }

    /// Iterates over the tags with their keys, in byte order of the keys.
    pub fn tags(&self) -> Pairs<'_> {
        Pairs(self.tags.iter())
    }

    /// Iterates over the parents, each once, in ascending order of uid.
    pub fn parents(&self) -> Uids<'_> {
        self.parents.iter()
    }

    /// Iterates over the indirect ancestors, each once, in ascending order of uid.
    pub fn indirect_ancestors(&self) -> Uids<'_> {
        self.indirect_ancestors.iter()
    }

    /// Iterates over the parents and then over the indirect ancestors, each in ascending order of uid.
    pub fn ancestors(&self) -> Ancestors<'_> {
        self.parents.iter().chain(&self.indirect_ancestors)
    }

    /// Iterates over the ancestors, each once, in ascending order of uid.
    pub fn ancestors_in_order(&self) -> Union<'_> {
        self.parents.union(&self.indirect_ancestors)
    }

    /// Returns whether both have the same uid, attributes, tags and ancestors. Does not compare which of the ancestors
    /// are parents.
    ///
    /// ```
    /// use cedar_store_proved::ast::{Entity, EntityUID, Value};
    /// let a = Entity::with_uid(EntityUID::from_normalized_str(r#"A::"a""#).unwrap());
    /// let other = a.clone().with_attr("k", Value::from(true));
    /// assert!(a == other && !a.deep_eq(&other));
    /// ```
    pub fn deep_eq(&self, other: &Entity) -> bool {
        self.uid == other.uid
            && self.attrs == other.attrs
            && self.tags == other.tags
            && self.ancestors_in_order().eq(other.ancestors_in_order())
    }

    /// Returns the uid, the attributes, the indirect ancestors, the parents and the tags.
    #[allow(clippy::type_complexity)]
    pub fn into_inner(
        self,
    ) -> (
        EntityUID,
        BTreeMap<String, PartialValue>,
        HashSet<EntityUID>,
        HashSet<EntityUID>,
        BTreeMap<String, PartialValue>,
    ) {
        let indirect_ancestors = self.indirect_ancestors.into_iter().collect();
        let parents = self.parents.into_iter().collect();
        (self.uid, self.attrs, indirect_ancestors, parents, self.tags)
    }

    /// Adds an indirect ancestor, unless the uid is a parent.
    pub fn add_indirect_ancestor(&mut self, uid: EntityUID) {
        if !self.parents.contains(&uid) {
            self.indirect_ancestors.insert(uid);
        }
    }

    /// Adds a parent. If the uid was an indirect ancestor, it is no longer one.
    pub fn add_parent(&mut self, uid: EntityUID) {
        self.indirect_ancestors.remove(&uid);
        self.parents.insert(uid);
    }

    /// Removes an indirect ancestor, if it is present.
    pub fn remove_indirect_ancestor(&mut self, uid: &EntityUID) {
        self.indirect_ancestors.remove(uid);
    }

    /// Removes a parent, if it is present.
    pub fn remove_parent(&mut self, uid: &EntityUID) {
        self.parents.remove(uid);
    }

    /// Removes all indirect ancestors.
    pub fn remove_all_indirect_ancestors(&mut self) {
        self.indirect_ancestors.clear();
    }

    /// Checks whether the entity is valid by itself.
    ///
    /// # Errors
    ///
    /// The checks are made in this order, and the first fault is reported:
    ///
    /// - `SelfAncestor`: the entity is its own ancestor.
    /// - `DuplicateAncestor`: an ancestor is both a parent and an indirect ancestor.
    /// - `ActionParentIsNotAction`: the entity is an action and has an ancestor that is not an action.
    /// - `ReservedKey`: a key of a record is reserved.
    ///
    /// The last two are checked by the library, in a store of only this entity. It can also return:
    ///
    /// - `Other` with [`Reason::Memory`](crate::Reason::Memory): an allocation failed.
    /// - `Other` with [`Reason::TooDeep`](crate::Reason::TooDeep): a value or an expression has more than 1,000
    ///   levels.
    ///
    /// ```
    /// use cedar_store_proved::ast::{Entity, EntityUID};
    /// let uid = |text| EntityUID::from_normalized_str(text).unwrap();
    /// let action = Entity::with_uid(uid(r#"Action::"go""#));
    /// assert!(action.is_valid() && action.with_parent(uid(r#"User::"alice""#)).validate().is_err());
    /// ```
    pub fn validate(&self) -> Result<(), EntitiesError> {
        let uid = self.uid.clone();
        if self.is_descendant_of(&uid) {
            return Err(EntitiesError::SelfAncestor { uid });
        }
        if let Some(twice) = self.parents.intersection(&self.indirect_ancestors).next() {
            let ancestor = twice.clone();
            return Err(EntitiesError::DuplicateAncestor { uid, ancestor });
        }
        let store = Entities::from_entities([self], TCComputation::AssumeAlreadyComputed)?;
        Ok(store.validate()?)
    }

    /// Returns whether [`Entity::validate`] succeeds.
    pub fn is_valid(&self) -> bool {
        self.validate().is_ok()
    }

    /// Returns the entity itself if it is valid.
    ///
    /// # Errors
    ///
    /// The errors of [`Entity::validate`].
    pub fn try_validate(self) -> Result<Entity, EntitiesError> {
        self.validate()?;
        Ok(self)
    }

    // Returns whether the entity has attributes, tags or indirect ancestors.
    pub(crate) fn has_content(&self) -> bool {
        !(self.attrs.is_empty() && self.tags.is_empty() && self.indirect_ancestors.is_empty())
    }
}

impl Extend<EntityUID> for Entity {
    /// Adds parents.
    fn extend<I: IntoIterator<Item = EntityUID>>(&mut self, parents: I) {
        parents
            .into_iter()
            .for_each(|parent| self.add_parent(parent));
    }
}

impl PartialEq for Entity {
    /// Returns whether both have the same uid.
    fn eq(&self, other: &Entity) -> bool {
        self.uid == other.uid
    }
}

impl Eq for Entity {}

impl Hash for Entity {
    fn hash<H: Hasher>(&self, state: &mut H) {
        self.uid.hash(state);
    }
}

// Writes items with a separator between them.
fn write_separated<T: fmt::Display>(
    items: impl Iterator<Item = T>,
    mark: &str,
    f: &mut fmt::Formatter<'_>,
) -> fmt::Result {
    for (place, item) in items.enumerate() {
        if place > 0 {
            f.write_str(mark)?;
        }
        write!(f, "{item}")?;
    }
    Ok(())
}

impl fmt::Display for Entity {
    /// Writes lines with the uid, the attributes and the ancestors, as a store does. Does not write tags.
    fn fmt(&self, f: &mut fmt::Formatter<'_>) -> fmt::Result {
        write!(f, "{}:\n  attrs:", self.uid)?;
        let pair = |(key, value): (&str, &PartialValue)| format!("{key}: {value}");
        write_separated(self.attrs().map(pair), "; ", f)?;
        f.write_str("\n  ancestors:")?;
        write_separated(self.ancestors_in_order(), ", ", f)
    }
}

impl StaticallyTyped for Entity {
    /// Returns the type of the uid.
    fn type_of(&self) -> StaticType {
        self.uid.type_of()
    }
}

/// An iterator over uids, in ascending order.
pub type Uids<'a> = btree_set::Iter<'a, EntityUID>;

/// An iterator over ancestors, parents first.
pub type Ancestors<'a> = Chain<Uids<'a>, Uids<'a>>;

/// An iterator over ancestors, in ascending order of uid.
pub type Union<'a> = btree_set::Union<'a, EntityUID>;

/// An iterator over keys, in byte order.
#[derive(Clone, Debug)]
pub struct Keys<'a>(btree_map::Keys<'a, String, PartialValue>);

impl<'a> Iterator for Keys<'a> {
    type Item = &'a str;

    fn next(&mut self) -> Option<&'a str> {
        self.0.next().map(String::as_str)
    }

    fn size_hint(&self) -> (usize, Option<usize>) {
        self.0.size_hint()
    }
}

/// An iterator over keys with their values, in byte order of the keys.
#[derive(Clone, Debug)]
pub struct Pairs<'a>(btree_map::Iter<'a, String, PartialValue>);

impl<'a> Iterator for Pairs<'a> {
    type Item = (&'a str, &'a PartialValue);

    fn next(&mut self) -> Option<(&'a str, &'a PartialValue)> {
        self.0.next().map(|(key, value)| (key.as_str(), value))
    }

    fn size_hint(&self) -> (usize, Option<usize>) {
        self.0.size_hint()
    }
}
