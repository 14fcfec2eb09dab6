//! Stores of entities.
use crate::deep_copy::EntitiesDeepCopy;
use crate::entity::Entity;
use crate::error::Error;
use crate::errors::EntitiesError;
use crate::expr::Expr;
use crate::ffi::{Change, DeepCopyHandle, OwnedHandle, Stores};
use crate::key::Key;
use crate::lists::{Content, Lists};
use crate::nodes;
use crate::numbers::StoreId;
use crate::slots::{StaticallyTyped, Unknown};
use crate::stored_entity::{Dereference, IntoIter, Iter, StoredEntity, MEMORY};
use crate::uid::EntityUID;
use crate::value::PartialValue;
use std::borrow::Borrow;
use std::collections::HashSet;
use std::fmt;

// The maximum number of entities for which the text of the whole store is requested in one call of the library.
const MAX_ONE_CALL: usize = 100;

/// The mode of a call: how it ensures that ancestors are complete.
///
/// A call affects the entities that it adds or removes, and the entities that have one of them as an ancestor. In every
/// mode, a removal repairs the affected entities: they get all ancestors that they still reach.
#[derive(Clone, Copy, Debug, Default, PartialEq, Eq, Hash)]
pub enum TCComputation {
    /// The affected entities get all ancestors that they reach, after a removal too. An error is returned if one of
    /// them reaches itself. Nothing else is checked.
    #[default]
    ComputeNow,
    /// Added entities are stored without changes, and a removal repairs the affected entities. Then the whole store is
    /// checked. An error is returned if an ancestor of an ancestor is missing, or if an entity is its own ancestor.
    EnforceAlreadyComputed,
    /// Added entities are stored without changes, and a removal repairs the affected entities. Nothing is checked, so
    /// no cycle is reported.
    AssumeAlreadyComputed,
}

/// A store of entities, keyed by uid.
///
/// Calls that the package `cedar-store` also has have the same names, arguments and results. An edit of this kind
/// consumes the store and returns it. In addition, there are calls with uids, for example [`Entities::get`]. Each of
/// them calls the library once and returns an error if an allocation fails. Also, `add`, `upsert` and `remove` change
/// the store in place. In these calls a uid is an [`EntityUID`] or a text. The error of a text that is not a uid is
/// `NotAUid`.
///
/// `==` compares only the uids and whether the stores are partial. [`Entities::deep_eq`] also compares the attributes,
/// tags and ancestors of the entities, but not which ancestors are parents. Iteration, `==`, `clone` and the methods of
/// [`StoredEntity`] panic if an allocation fails, as the collections of the standard library abort.
///
/// ```
/// use cedar_store_proved::ast::{Entity, EntityUID};
/// use cedar_store_proved::entities::{Dereference, Entities, TCComputation};
/// let uid = |text| EntityUID::from_normalized_str(text).unwrap();
/// let (alice, staff, all) = (uid(r#"User::"alice""#), uid(r#"Group::"staff""#), uid(r#"Group::"all""#));
/// let mut entities = [alice.clone(), staff.clone()].map(Entity::with_uid);
/// entities[0].add_parent(staff.clone());
/// entities[1].add_parent(all.clone());
/// let store = Entities::from_entities(entities, TCComputation::ComputeNow).unwrap();
/// assert!(matches!(store.entity(&alice), Dereference::Data(e) if e.is_descendant_of(&all)));
/// let store = store.remove_entities([staff.clone()], TCComputation::ComputeNow).unwrap();
/// assert!(!store.is_descendant_of(&alice, &all).unwrap());
/// ```
///
/// A store belongs to the thread that created it: it is neither `Send` nor `Sync`. The result of
/// [`Entities::deep_copy`] is `Send`.
///
/// ```compile_fail
/// fn sends<T: Send>(_: T) {}
/// sends(cedar_store_proved::entities::Entities::new());
/// ```
///
/// ```compile_fail
/// fn shares<T: Sync>(_: T) {}
/// shares(cedar_store_proved::entities::Entities::new());
/// ```
pub struct Entities {
    pub(crate) handle: OwnedHandle<Stores>,
    pub(crate) id: StoreId,
}

impl Entities {
    fn of(handle: Result<OwnedHandle<Stores>, u32>) -> Result<Entities, Error> {
        match handle {
            Ok(handle) => Ok(Entities::from_handle(handle)),
            Err(status) => Err(Error::new(status, Vec::new)),
        }
    }

    // Creates a store from a handle. Its numbers of uids belong to no other store.
    pub(crate) fn from_handle(handle: OwnedHandle<Stores>) -> Entities {
        let id = StoreId::fresh();
        Entities { handle, id }
    }

    pub(crate) fn check_status(&self, status: u32) -> Result<(), Error> {
        Error::check_status(status, || self.handle.error_text())
    }

    /// Creates an empty store, with a random key.
    ///
    /// # Panics
    ///
    /// Panics if the allocation of a few bytes fails. [`Entities::with_key`] returns an error instead.
    pub fn new() -> Entities {
        Entities::with_key(Key::random()).expect("cannot allocate an empty store")
    }

    /// Creates an empty store. The hash maps of the store, of its copies and of its slices use this key.
    ///
    /// # Errors
    ///
    /// - `Memory`: an allocation failed.
    ///
    /// ```
    /// use cedar_store_proved::{Entities, Key};
    /// let store = Entities::with_key(Key { seed: 17, key: 4 }).unwrap();
    /// assert!(store.is_empty());
    /// ```
    pub fn with_key(key: Key) -> Result<Entities, Error> {
        Entities::of(OwnedHandle::new(key))
    }

    /// Creates a store of these entities, with a random key. Entities with the same uid must be deeply equal.
    ///
    /// # Errors
    ///
    /// - `Duplicate`: two entities of the list have the same uid, but are not deeply equal.
    /// - `TransitiveClosureError`: an entity reaches itself, or in `EnforceAlreadyComputed` an ancestor of an ancestor
    ///   is missing.
    /// - `Other`: a value or an expression has more than 1,000 levels, or an allocation failed.
    ///
    /// ```
    /// use cedar_store_proved::ast::{Entity, EntityUID};
    /// use cedar_store_proved::entities::{Entities, EntitiesError, TCComputation};
    /// let uid = |text| EntityUID::from_normalized_str(text).unwrap();
    /// let a = Entity::with_uid(uid(r#"A::"a""#));
    /// let other = a.clone().with_parent(uid(r#"A::"b""#));
    /// let result = Entities::from_entities([a, other], TCComputation::ComputeNow);
    /// assert_eq!(result.unwrap_err(), EntitiesError::Duplicate(uid(r#"A::"a""#)));
    /// ```
    pub fn from_entities(
        entities: impl IntoIterator<Item = impl Borrow<Entity>>,
        mode: TCComputation,
    ) -> Result<Entities, EntitiesError> {
        let mut store = Entities::with_key(Key::random())?;
        store.edit(Change::Build, entities, mode)?;
        Ok(store)
    }

    // Changes the store. If the entities have only parents, uses the shorter format of the library.
    fn edit(
        &mut self,
        change: Change,
        entities: impl IntoIterator<Item = impl Borrow<Entity>>,
        mode: TCComputation,
    ) -> Result<(), Error> {
        let entities: Vec<_> = entities.into_iter().collect();
        let status = if entities.iter().any(|entity| entity.borrow().has_content()) {
            let content = Content::of_entities(&entities);
            self.handle.change_with(change, &content, mode as u32)
        } else {
            let lists = Lists::of_entities(&entities);
            self.handle.change(change, &lists, mode as u32)
        };
        self.check_status(status)
    }

    /// Adds entities to the store. An entity whose uid is in the store must be deeply equal to the stored entity, which
    /// is kept.
    ///
    /// # Errors
    ///
    /// - `Duplicate`: an entity differs from a stored one or an earlier one with the same uid.
    /// - `TransitiveClosureError`: an entity reaches itself, or in `EnforceAlreadyComputed` an ancestor of an ancestor
    ///   is missing.
    /// - `Other`: a value or an expression has more than 1,000 levels, or an allocation failed.
    ///
    /// After an error the store is dropped. To keep it, copy it before with [`Entities::try_clone`], or use
    /// [`Entities::add`].
    ///
    /// ```
    /// use cedar_store_proved::ast::{Entity, EntityUID};
    /// use cedar_store_proved::entities::{Entities, TCComputation};
    /// let uid = |text| EntityUID::from_normalized_str(text).unwrap();
    /// let (a, b) = (uid(r#"A::"a""#), uid(r#"A::"b""#));
    /// let child = Entity::with_uid(a.clone()).with_parent(b.clone());
    /// let store = Entities::from_entities([child], TCComputation::ComputeNow).unwrap();
    /// let parent = Entity::with_uid(b).with_parent(a);
    /// assert!(store.add_entities([parent], TCComputation::ComputeNow).is_err());
    /// ```
    pub fn add_entities(
        mut self,
        entities: impl IntoIterator<Item = impl Borrow<Entity>>,
        mode: TCComputation,
    ) -> Result<Entities, EntitiesError> {
        self.add(entities, mode)?;
        Ok(self)
    }

    /// Overwrites entities. Each entity is inserted, and replaces the entity with its uid. If several have the same
    /// uid, the last one is used.
    ///
    /// # Errors
    ///
    /// - `TransitiveClosureError`: an entity reaches itself, or in `EnforceAlreadyComputed` an ancestor of an ancestor
    ///   is missing.
    /// - `Other`: a value or an expression has more than 1,000 levels, or an allocation failed.
    ///
    /// After an error the store is dropped.
    pub fn upsert_entities(
        mut self,
        entities: impl IntoIterator<Item = impl Borrow<Entity>>,
        mode: TCComputation,
    ) -> Result<Entities, EntitiesError> {
        self.upsert(entities, mode)?;
        Ok(self)
    }

    /// Removes the entities with the uids, also as parents. A uid that is not in the store has no effect.
    ///
    /// # Errors
    ///
    /// - `TransitiveClosureError`: an entity reaches itself, or in `EnforceAlreadyComputed` an ancestor of an ancestor
    ///   is missing. This never happens in a store that was built only with `ComputeNow`.
    /// - `Other`: an allocation failed.
    ///
    /// After an error the store is dropped.
    pub fn remove_entities(
        mut self,
        uids: impl IntoIterator<Item = EntityUID>,
        mode: TCComputation,
    ) -> Result<Entities, EntitiesError> {
        self.remove(uids, mode)?;
        Ok(self)
    }

    /// Adds entities in place, as [`Entities::add_entities`] does.
    ///
    /// # Errors
    ///
    /// - `Duplicate`: an entity differs from a stored one or an earlier one with the same uid.
    /// - `Cycle`: an entity reaches itself.
    /// - `NotClosed`: the mode is `EnforceAlreadyComputed`, and an ancestor of an ancestor is missing.
    /// - `TooDeep`: a value or an expression has more than 1,000 levels.
    /// - `Memory`: an allocation failed. The store may be empty afterwards.
    ///
    /// After any other error the store is unchanged.
    ///
    /// ```
    /// use cedar_store_proved::ast::{Entity, EntityUID, Value};
    /// use cedar_store_proved::{Entities, Reason, TCComputation};
    /// let a = EntityUID::from_normalized_str(r#"A::"a""#).unwrap();
    /// let mut store = Entities::new();
    /// store.add([Entity::with_uid(a.clone())], TCComputation::ComputeNow).unwrap();
    /// let other = Entity::with_uid(a).with_attr("k", Value::from(1));
    /// assert_eq!(store.add([other], TCComputation::ComputeNow).unwrap_err().reason(), Reason::Duplicate);
    /// assert_eq!(store.len(), 1);
    /// ```
    pub fn add(
        &mut self,
        entities: impl IntoIterator<Item = impl Borrow<Entity>>,
        mode: TCComputation,
    ) -> Result<(), Error> {
        self.edit(Change::Add, entities, mode)
    }

    /// Overwrites entities in place, as [`Entities::upsert_entities`] does.
    ///
    /// # Errors
    ///
    /// - `Cycle`: an entity reaches itself.
    /// - `NotClosed`: the mode is `EnforceAlreadyComputed`, and an ancestor of an ancestor is missing.
    /// - `TooDeep`: a value or an expression has more than 1,000 levels.
    /// - `Memory`: an allocation failed. The store may be empty afterwards.
    ///
    /// After any other error the store is unchanged.
    pub fn upsert(
        &mut self,
        entities: impl IntoIterator<Item = impl Borrow<Entity>>,
        mode: TCComputation,
    ) -> Result<(), Error> {
        self.edit(Change::Upsert, entities, mode)
    }

    /// Removes entities in place, as [`Entities::remove_entities`] does.
    ///
    /// # Errors
    ///
    /// - `NotAUid`: a text is not a uid.
    /// - `Cycle`: an entity reaches itself.
    /// - `NotClosed`: the mode is `EnforceAlreadyComputed`, and an ancestor of an ancestor is missing.
    /// - `Memory`: an allocation failed. The store may be empty afterwards.
    ///
    /// After any other error the store is unchanged.
    pub fn remove<U: AsRef<str>>(
        &mut self,
        uids: impl IntoIterator<Item = U>,
        mode: TCComputation,
    ) -> Result<(), Error> {
        let status = self.handle.remove(&Lists::of_texts(uids), mode as u32);
        self.check_status(status)
    }

    /// Returns the number of entities.
    pub fn len(&self) -> usize {
        self.handle.len()
    }

    /// Returns whether the store has no entities.
    pub fn is_empty(&self) -> bool {
        self.len() == 0
    }

    /// Returns whether the store has an entity with this uid.
    ///
    /// # Errors
    ///
    /// - `NotAUid`: the text is not a uid.
    /// - `Memory`: an allocation failed.
    pub fn contains(&self, uid: impl AsRef<str>) -> Result<bool, Error> {
        let (status, value) = self.handle.has(uid.as_ref());
        self.check_status(status)?;
        Ok(value)
    }

    /// Looks up the entity with this uid. Calls the library once.
    ///
    /// # Panics
    ///
    /// Panics if an allocation fails. [`Entities::contains`] returns an error instead.
    ///
    /// ```
    /// use cedar_store_proved::ast::{Entity, EntityUID};
    /// use cedar_store_proved::entities::{Dereference, Entities, TCComputation};
    /// let uid = |text| EntityUID::from_normalized_str(text).unwrap();
    /// let (a, b) = (uid(r#"A::"a""#), uid(r#"A::"b""#));
    /// let store = Entities::from_entities([Entity::with_uid(a.clone())], TCComputation::ComputeNow).unwrap();
    /// assert_eq!(store.entity(&a).unwrap().attrs_len(), 0);
    /// assert!(matches!(store.entity(&b), Dereference::NoSuchEntity));
    /// assert!(matches!(store.partial().entity(&b), Dereference::Residual(_)));
    /// ```
    pub fn entity(&self, uid: &EntityUID) -> Dereference<StoredEntity<'_>> {
        let (status, kind) = self.handle.entity(uid.as_str());
        self.check_status(status).expect(MEMORY);
        match kind {
            0 => Dereference::NoSuchEntity,
            1 => Dereference::Residual(unknown_of(uid)),
            _ => Dereference::Data(StoredEntity::of(self, uid.clone())),
        }
    }

    /// Returns the entity with this uid, if the store has one.
    ///
    /// # Panics
    ///
    /// Panics if an allocation fails.
    pub fn stored(&self, uid: &EntityUID) -> Option<StoredEntity<'_>> {
        self.entity(uid).data()
    }

    /// Returns the store as a partial one, in which an entity that is absent is unknown. A copy of a partial store is
    /// partial; a slice is not.
    pub fn partial(mut self) -> Entities {
        self.handle.partial();
        self
    }

    /// Returns whether the store is partial.
    pub fn is_partial(&self) -> bool {
        self.handle.is_partial()
    }

    /// Returns whether an entity is a descendant of a uid: whether it reaches the uid over any number of parents. Calls
    /// the library once and copies no text.
    ///
    /// # Errors
    ///
    /// - `NotAUid`: a text is not a uid.
    /// - `NoEntity`: the store has no entity with the first uid.
    /// - `Memory`: an allocation failed.
    pub fn is_descendant_of(
        &self,
        child: impl AsRef<str>,
        ancestor: impl AsRef<str>,
    ) -> Result<bool, Error> {
        self.value_if_ok(
            self.handle
                .is_descendant_of(child.as_ref(), ancestor.as_ref()),
        )
    }

    /// Returns whether a uid is a parent of an entity.
    ///
    /// # Errors
    ///
    /// The errors of [`Entities::is_descendant_of`].
    pub fn is_child_of(
        &self,
        child: impl AsRef<str>,
        parent: impl AsRef<str>,
    ) -> Result<bool, Error> {
        self.value_if_ok(self.handle.is_child_of(child.as_ref(), parent.as_ref()))
    }

    /// Returns whether a uid is an indirect ancestor of an entity. In a store that was built only with `ComputeNow`,
    /// these are the ancestors that are not parents.
    ///
    /// # Errors
    ///
    /// The errors of [`Entities::is_descendant_of`].
    pub fn is_indirect_descendant_of(
        &self,
        child: impl AsRef<str>,
        ancestor: impl AsRef<str>,
    ) -> Result<bool, Error> {
        self.value_if_ok(
            self.handle
                .is_indirect_descendant_of(child.as_ref(), ancestor.as_ref()),
        )
    }

    // Returns the output of a call, if its status is 0.
    pub(crate) fn value_if_ok<T>(&self, (status, value): (u32, T)) -> Result<T, Error> {
        self.check_status(status)?;
        Ok(value)
    }

    // Returns the texts of the last result, as uids.
    pub(crate) fn result_uids(&self, status: u32) -> Result<Vec<EntityUID>, Error> {
        self.check_status(status)?;
        Ok(self.handle.map_results(EntityUID::from_valid_text))
    }

    // Returns the texts of the last result.
    fn result_texts(&self, status: u32) -> Result<Vec<String>, Error> {
        self.check_status(status)?;
        Ok(self.handle.map_results(str::to_owned))
    }

    /// Returns the ancestors of an entity, in ascending order of uid.
    ///
    /// # Errors
    ///
    /// The errors of [`Entities::is_descendant_of`].
    pub fn ancestors(&self, uid: impl AsRef<str>) -> Result<Vec<EntityUID>, Error> {
        self.result_uids(self.handle.ancestors(uid.as_ref()))
    }

    /// Returns the parents of an entity, in ascending order of uid.
    ///
    /// # Errors
    ///
    /// The errors of [`Entities::is_descendant_of`].
    pub fn parents(&self, uid: impl AsRef<str>) -> Result<Vec<EntityUID>, Error> {
        self.result_uids(self.handle.parents(uid.as_ref()))
    }

    /// Returns the indirect ancestors of an entity, in ascending order of uid. In a store that was built only with
    /// `ComputeNow`, these are the ancestors that are not parents.
    ///
    /// # Errors
    ///
    /// The errors of [`Entities::is_descendant_of`].
    pub fn indirect_ancestors(&self, uid: impl AsRef<str>) -> Result<Vec<EntityUID>, Error> {
        self.result_uids(self.handle.indirect_ancestors(uid.as_ref()))
    }

    /// Returns the uids of all entities, each once. Their order depends on the key of the store.
    ///
    /// # Errors
    ///
    /// - `Memory`: an allocation failed.
    pub fn uids(&self) -> Result<Vec<EntityUID>, Error> {
        self.result_uids(self.handle.uids())
    }

    /// Iterates over the entities, each once. Their order depends on the key of the store.
    ///
    /// # Panics
    ///
    /// Panics if an allocation fails. [`Entities::uids`] returns an error instead.
    pub fn iter(&self) -> Iter<'_> {
        Iter::of(self)
    }

    /// Returns the keys of the attributes of an entity, in byte order.
    ///
    /// # Errors
    ///
    /// The errors of [`Entities::is_descendant_of`].
    pub fn keys(&self, uid: impl AsRef<str>) -> Result<Vec<String>, Error> {
        self.result_texts(self.handle.keys(uid.as_ref()))
    }

    /// Returns the keys of the tags of an entity, in byte order.
    ///
    /// # Errors
    ///
    /// The errors of [`Entities::is_descendant_of`].
    pub fn tag_keys(&self, uid: impl AsRef<str>) -> Result<Vec<String>, Error> {
        self.result_texts(self.handle.tag_keys(uid.as_ref()))
    }

    /// Returns the number of attributes of an entity.
    ///
    /// # Errors
    ///
    /// The errors of [`Entities::is_descendant_of`].
    pub fn attrs_len(&self, uid: impl AsRef<str>) -> Result<usize, Error> {
        self.value_if_ok(self.handle.attrs_len(uid.as_ref()))
    }

    /// Returns the number of tags of an entity.
    ///
    /// # Errors
    ///
    /// The errors of [`Entities::is_descendant_of`].
    pub fn tags_len(&self, uid: impl AsRef<str>) -> Result<usize, Error> {
        self.value_if_ok(self.handle.tags_len(uid.as_ref()))
    }

    // Returns the last value of the library, if the call found one.
    fn result_value(&self, call_result: (u32, bool)) -> Result<Option<PartialValue>, Error> {
        if !self.value_if_ok(call_result)? {
            return Ok(None);
        }
        let value = nodes::read(&self.handle.result_text(), &self.handle.nodes());
        Ok(Some(value.expect("the library returns a value")))
    }

    /// Returns the attribute of an entity with this key, if it has one. Calls the library once, and twice more to copy
    /// the value.
    ///
    /// # Errors
    ///
    /// The errors of [`Entities::is_descendant_of`].
    ///
    /// ```
    /// use cedar_store_proved::ast::{Entity, EntityUID, Value};
    /// use cedar_store_proved::{Entities, TCComputation};
    /// let a = EntityUID::from_normalized_str(r#"A::"a""#).unwrap();
    /// let entity = Entity::with_uid(a.clone()).with_attr("k", Value::set([Value::from("x")], None));
    /// let store = Entities::from_entities([entity], TCComputation::ComputeNow).unwrap();
    /// assert_eq!(store.get(&a, "k").unwrap().unwrap().to_string(), r#"["x"]"#);
    /// assert!(store.get(&a, "j").unwrap().is_none());
    /// ```
    pub fn get(&self, uid: impl AsRef<str>, key: &str) -> Result<Option<PartialValue>, Error> {
        self.result_value(self.handle.get(uid.as_ref(), key))
    }

    /// Returns the tag of an entity with this key, if it has one. Otherwise works like [`Entities::get`].
    ///
    /// # Errors
    ///
    /// The errors of [`Entities::is_descendant_of`].
    pub fn get_tag(&self, uid: impl AsRef<str>, key: &str) -> Result<Option<PartialValue>, Error> {
        self.result_value(self.handle.get_tag(uid.as_ref(), key))
    }

    // Reads a whole entity. Each listed key has a value.
    pub(crate) fn read_entity(&self, uid: EntityUID) -> Result<Entity, Error> {
        let (mut attrs, mut tags) = (Vec::new(), Vec::new());
        for key in self.keys(&uid)? {
            let value = self.get(&uid, &key)?;
            attrs.extend(value.map(|value| (key, value)));
        }
        for key in self.tag_keys(&uid)? {
            let value = self.get_tag(&uid, &key)?;
            tags.extend(value.map(|value| (key, value)));
        }
        let all = |uids: Vec<EntityUID>| HashSet::from_iter(uids);
        let indirect = all(self.indirect_ancestors(&uid)?);
        let parents = all(self.parents(&uid)?);
        Ok(Entity::new_with_attr_partial_value(
            uid, attrs, indirect, parents, tags,
        ))
    }

    /// Returns whether the entities with a uid in this store and in another store are deeply equal: whether they have
    /// the same attributes, tags and ancestors.
    ///
    /// # Errors
    ///
    /// - `NotAUid`: the text is not a uid.
    /// - `NoEntity`: one of the stores has no entity with this uid.
    /// - `Memory`: an allocation failed.
    pub fn entity_equal(&self, uid: impl AsRef<str>, other: &Entities) -> Result<bool, Error> {
        self.value_if_ok(self.handle.has_equal(uid.as_ref(), &other.handle))
    }

    // Returns the text of the store, in parts. The call for the text of the whole store scans all entities for each
    // entity, so it is used only for small stores.
    fn texts(&self) -> Result<Vec<String>, Error> {
        if self.len() <= MAX_ONE_CALL {
            return self.result_texts(self.handle.text());
        }
        let mut uids = self.uids()?;
        uids.sort();
        uids.iter()
            .map(|uid| Ok(self.text_of(uid)? + "\n"))
            .collect()
    }

    // Returns the text of the entity with this uid.
    pub(crate) fn text_of(&self, uid: &EntityUID) -> Result<String, Error> {
        self.check_status(self.handle.entity_text(uid.as_str()))?;
        Ok(self.handle.result_text())
    }

    /// Checks whether the store is valid. Does not change the store.
    ///
    /// # Errors
    ///
    /// The ancestors are checked first:
    ///
    /// - `NotClosed`: an ancestor of an ancestor is missing.
    /// - `Cycle`: the ancestors are closed, and an entity is its own ancestor.
    ///
    /// Then each entity is checked. The first fault of the invalid entity with the least uid is reported:
    /// `SelfAncestor`, `DuplicateAncestor`, `ActionParentIsNotAction` or `ReservedKey`; see [`Entity::validate`].
    ///
    /// The call returns `Memory` if an allocation failed.
    pub fn validate(&self) -> Result<(), Error> {
        self.check_status(self.handle.validate())
    }

    /// Returns the store itself if it is valid.
    ///
    /// # Errors
    ///
    /// The fault that [`Entities::validate`] reports. A fault of the ancestors is a `TransitiveClosureError`. After an
    /// error the store is dropped.
    ///
    /// - `Other`: an allocation failed.
    ///
    /// ```
    /// use cedar_store_proved::ast::{Entity, EntityUID};
    /// use cedar_store_proved::entities::{Entities, EntitiesError, TCComputation};
    /// let uid = |text| EntityUID::from_normalized_str(text).unwrap();
    /// let entity = Entity::with_uid(uid(r#"Action::"go""#)).with_parent(uid(r#"A::"a""#));
    /// let store = Entities::from_entities([entity], TCComputation::ComputeNow).unwrap();
    /// assert!(matches!(store.try_validate(), Err(EntitiesError::ActionParentIsNotAction { .. })));
    /// ```
    pub fn try_validate(self) -> Result<Entities, EntitiesError> {
        self.validate()?;
        Ok(self)
    }

    /// Returns a slice of the store at these uids: the entities with these uids, and their ancestors that the store
    /// contains. The function [`slice`](crate::slice) has the signature of the package `cedar-store`.
    ///
    /// # Errors
    ///
    /// - `NotAUid`: a text is not a uid.
    /// - `Memory`: an allocation failed.
    pub fn slice<U: AsRef<str>>(
        &self,
        uids: impl IntoIterator<Item = U>,
    ) -> Result<Entities, Error> {
        Entities::of(self.handle.slice(&Lists::of_texts(uids)))
    }

    /// Returns a slice of the store at these uids, as [`Entities::slice`] does. The slice shares nothing with the
    /// store, so it can be sent to another thread.
    ///
    /// # Errors
    ///
    /// - `NotAUid`: a text is not a uid.
    /// - `Memory`: an allocation failed.
    pub fn slice_deep_copy<U: AsRef<str>>(
        &self,
        uids: impl IntoIterator<Item = U>,
    ) -> Result<EntitiesDeepCopy, Error> {
        Entities::from_deep_copy(self.handle.slice_deep_copy(&Lists::of_texts(uids)))
    }

    /// Returns a deep copy of the store, which can be sent to another thread. Copies the whole content of the store.
    ///
    /// # Errors
    ///
    /// - `Memory`: an allocation failed.
    pub fn deep_copy(&self) -> Result<EntitiesDeepCopy, Error> {
        Entities::from_deep_copy(self.handle.deep_copy())
    }

    fn from_deep_copy(
        handle: Result<DeepCopyHandle<Stores>, u32>,
    ) -> Result<EntitiesDeepCopy, Error> {
        match handle {
            Ok(handle) => Ok(EntitiesDeepCopy::of(handle)),
            Err(status) => Err(Error::new(status, Vec::new)),
        }
    }

    /// Returns a copy that shares the entities.
    ///
    /// # Errors
    ///
    /// - `Memory`: an allocation failed.
    pub fn try_clone(&self) -> Result<Entities, Error> {
        Entities::of(self.handle.copy())
    }

    /// Returns whether both stores are partial or neither is, and both have the same uids with entities that have the
    /// same attributes, tags and ancestors. It does not matter which ancestors are parents. Does not allocate.
    pub fn deep_eq(&self, other: &Entities) -> bool {
        self.handle.is_equal(&other.handle)
    }
}

// Returns the unknown for an entity that is absent from a partial store.
fn unknown_of(uid: &EntityUID) -> Expr {
    Expr::unknown(Unknown::new_with_type(uid.as_str(), uid.type_of()))
}

impl<'a> IntoIterator for &'a Entities {
    type Item = StoredEntity<'a>;
    type IntoIter = Iter<'a>;

    fn into_iter(self) -> Iter<'a> {
        self.iter()
    }
}

impl IntoIterator for Entities {
    type Item = Entity;
    type IntoIter = IntoIter;

    fn into_iter(self) -> IntoIter {
        IntoIter::of(self)
    }
}

impl FromIterator<Entity> for Result<Entities, EntitiesError> {
    /// Creates a store of these entities, with [`Entities::from_entities`] and `ComputeNow`.
    fn from_iter<I: IntoIterator<Item = Entity>>(entities: I) -> Self {
        Entities::from_entities(entities, TCComputation::ComputeNow)
    }
}

impl Clone for Entities {
    /// Returns a copy that shares the entities.
    ///
    /// # Panics
    ///
    /// Panics if an allocation fails. [`Entities::try_clone`] returns an error instead.
    fn clone(&self) -> Entities {
        self.try_clone().expect(MEMORY)
    }
}

impl PartialEq for Entities {
    /// Returns whether both have the same uids, and both are partial or neither is. Looks up each uid of one store in
    /// the other.
    ///
    /// # Panics
    ///
    /// Panics if an allocation fails.
    fn eq(&self, other: &Entities) -> bool {
        self.len() == other.len()
            && self.is_partial() == other.is_partial()
            && (self.deep_eq(other)
                || self
                    .iter()
                    .all(|entity| other.contains(entity.uid()).expect(MEMORY)))
    }
}

impl Eq for Entities {}

impl fmt::Display for Entities {
    /// Writes the texts of all entities in ascending order of uid, each followed by a line feed.
    fn fmt(&self, f: &mut fmt::Formatter<'_>) -> fmt::Result {
        let texts = self.texts().map_err(|_| fmt::Error)?;
        texts.iter().try_for_each(|text| f.write_str(text))
    }
}

impl Default for Entities {
    fn default() -> Entities {
        Entities::new()
    }
}

impl fmt::Debug for Entities {
    fn fmt(&self, f: &mut fmt::Formatter<'_>) -> fmt::Result {
        f.debug_struct("Entities")
            .field("len", &self.len())
            .finish_non_exhaustive()
    }
}
