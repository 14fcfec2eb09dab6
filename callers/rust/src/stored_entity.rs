//! Results of lookups, and the entities of a store.
use crate::entity::Entity;
use crate::error::Error;
use crate::expr::Expr;
use crate::stored::Entities;
use crate::uid::EntityUID;
use std::cell::OnceCell;
use std::fmt;
use std::hash::{Hash, Hasher};
use std::ops::Deref;
use std::vec;

// The panic message of calls that cannot return an error.
pub(crate) const MEMORY: &str = "cannot allocate the result of a query";

/// The result of a lookup of a uid.
#[derive(Clone, Debug)]
pub enum Dereference<T> {
    /// There is no entity with the uid.
    NoSuchEntity,
    /// The store is partial and has no entity with the uid, so the entity is unknown. The expression is an unknown
    /// whose name is the text of the uid and whose type is the entity type.
    Residual(Expr),
    /// The item that was found.
    Data(T),
}

impl<T> Dereference<T> {
    /// Returns the item that was found, if there is one.
    pub fn data(self) -> Option<T> {
        match self {
            Dereference::Data(data) => Some(data),
            _ => None,
        }
    }

    /// Returns the item that was found.
    ///
    /// # Panics
    ///
    /// Panics if nothing was found, or if the entity is unknown.
    #[track_caller]
    pub fn unwrap(self) -> T {
        match self {
            Dereference::Data(data) => data,
            Dereference::NoSuchEntity => panic!("unwrap() called on NoSuchEntity"),
            Dereference::Residual(expr) => panic!("unwrap() called on Residual({expr:?})"),
        }
    }

    /// Returns the item that was found, as [`Dereference::unwrap`] does.
    ///
    /// # Panics
    ///
    /// Panics with `msg` if nothing was found, or if the entity is unknown.
    #[track_caller]
    pub fn expect(self, msg: &str) -> T {
        match self {
            Dereference::Data(data) => data,
            Dereference::NoSuchEntity => panic!("expect() called on NoSuchEntity, msg: {msg}"),
            Dereference::Residual(expr) => {
                panic!("expect() called on Residual({expr:?}), msg: {msg}")
            }
        }
    }
}

/// An entity of a store. It derefs to [`Entity`], so it can be used wherever an `&Entity` is expected.
///
/// Its own methods, for example `is_descendant_of`, query the store with one call of the library each. The methods of
/// [`Entity`], for example `get` or `parents`, use a copy of the whole entity. The first of them reads this copy: it
/// calls the library once for each attribute and each tag, and four more times. To read one attribute, use
/// [`Entities::get`]. All methods panic if an allocation fails, as the collections of the standard library abort. The
/// calls of the store with a uid return an error instead.
///
/// ```
/// use cedar_store_proved::ast::{Entity, EntityUID, Value};
/// use cedar_store_proved::entities::{Entities, TCComputation};
/// let uid = |text| EntityUID::from_normalized_str(text).unwrap();
/// let (a, b) = (uid(r#"A::"a""#), uid(r#"A::"b""#));
/// let entity = Entity::with_uid(a.clone()).with_parent(b.clone()).with_attr("k", Value::from(7));
/// let store = Entities::from_entities([entity], TCComputation::ComputeNow).unwrap();
/// let stored = store.entity(&a).unwrap();
/// assert!(stored.is_descendant_of(&b) && stored.parents().eq([&b]));
/// assert_eq!(stored.get("k").unwrap().to_string(), "7");
/// ```
#[derive(Clone)]
pub struct StoredEntity<'a> {
    store: &'a Entities,
    uid: EntityUID,
    entity: OnceCell<Entity>,
}

fn expect_allocated<T>(result: Result<T, Error>) -> T {
    result.expect(MEMORY)
}

impl<'a> StoredEntity<'a> {
    /// Creates a reference to the entity of a store with this uid.
    pub(crate) fn of(store: &'a Entities, uid: EntityUID) -> StoredEntity<'a> {
        let entity = OnceCell::new();
        StoredEntity { store, uid, entity }
    }

    /// Returns the uid. Does not call the library.
    pub fn uid(&self) -> &EntityUID {
        &self.uid
    }

    /// Returns whether the entity is a descendant of a uid: whether it reaches the uid over any number of parents.
    /// Calls the library once.
    pub fn is_descendant_of(&self, other: &EntityUID) -> bool {
        expect_allocated(self.store.is_descendant_of(&self.uid, other))
    }

    /// Returns whether a uid is a parent of the entity. Calls the library once.
    pub fn is_child_of(&self, other: &EntityUID) -> bool {
        expect_allocated(self.store.is_child_of(&self.uid, other))
    }

    /// Returns whether a uid is an indirect ancestor of the entity. In a store that was built only with `ComputeNow`,
    /// these are the ancestors that are not parents. Calls the library once.
    pub fn is_indirect_descendant_of(&self, other: &EntityUID) -> bool {
        expect_allocated(self.store.is_indirect_descendant_of(&self.uid, other))
    }

    /// Returns the number of attributes. Calls the library once.
    pub fn attrs_len(&self) -> usize {
        expect_allocated(self.store.attrs_len(&self.uid))
    }

    /// Returns the number of tags. Calls the library once.
    pub fn tags_len(&self) -> usize {
        expect_allocated(self.store.tags_len(&self.uid))
    }

    /// Returns a copy of the whole entity, which can be added to a store.
    pub fn into_entity(self) -> Entity {
        match self.entity.into_inner() {
            Some(entity) => entity,
            None => expect_allocated(self.store.read_entity(self.uid)),
        }
    }
}

impl Deref for StoredEntity<'_> {
    type Target = Entity;

    /// Returns the whole entity. Reads it on the first call.
    fn deref(&self) -> &Entity {
        self.entity
            .get_or_init(|| expect_allocated(self.store.read_entity(self.uid.clone())))
    }
}

impl PartialEq for StoredEntity<'_> {
    /// Returns whether both have the same uid.
    fn eq(&self, other: &Self) -> bool {
        self.uid == other.uid
    }
}

impl Eq for StoredEntity<'_> {}

impl PartialEq<Entity> for StoredEntity<'_> {
    fn eq(&self, other: &Entity) -> bool {
        self.uid == *other.uid()
    }
}

impl Hash for StoredEntity<'_> {
    fn hash<H: Hasher>(&self, state: &mut H) {
        self.uid.hash(state);
    }
}

impl fmt::Debug for StoredEntity<'_> {
    fn fmt(&self, f: &mut fmt::Formatter<'_>) -> fmt::Result {
        f.debug_tuple("StoredEntity").field(&self.uid).finish()
    }
}

impl fmt::Display for StoredEntity<'_> {
    /// Writes lines with the uid, the attributes and the ancestors. Calls the library once.
    fn fmt(&self, f: &mut fmt::Formatter<'_>) -> fmt::Result {
        let text = self.store.text_of(&self.uid).map_err(|_| fmt::Error)?;
        f.write_str(&text)
    }
}

/// An iterator over the entities of a store, each once. Their order depends on the key of the store.
#[derive(Clone, Debug)]
pub struct Iter<'a> {
    store: &'a Entities,
    uids: vec::IntoIter<EntityUID>,
}

impl<'a> Iter<'a> {
    pub(crate) fn of(store: &'a Entities) -> Iter<'a> {
        let uids = expect_allocated(store.uids()).into_iter();
        Iter { store, uids }
    }
}

impl<'a> Iterator for Iter<'a> {
    type Item = StoredEntity<'a>;

    fn next(&mut self) -> Option<StoredEntity<'a>> {
        let uid = self.uids.next()?;
        Some(StoredEntity::of(self.store, uid))
    }

    fn size_hint(&self) -> (usize, Option<usize>) {
        self.uids.size_hint()
    }
}

impl ExactSizeIterator for Iter<'_> {}

/// An iterator over the entities of a consumed store, each once, with all of their content.
#[derive(Debug)]
pub struct IntoIter {
    store: Entities,
    uids: vec::IntoIter<EntityUID>,
}

impl IntoIter {
    pub(crate) fn of(store: Entities) -> IntoIter {
        let uids = expect_allocated(store.uids()).into_iter();
        IntoIter { store, uids }
    }
}

impl Iterator for IntoIter {
    type Item = Entity;

    fn next(&mut self) -> Option<Entity> {
        let uid = self.uids.next()?;
        Some(expect_allocated(self.store.read_entity(uid)))
    }

    fn size_hint(&self) -> (usize, Option<usize>) {
        self.uids.size_hint()
    }
}

impl ExactSizeIterator for IntoIter {}
