//! Numbers of uids, for programs that query the same uids many times.
use crate::error::{Error, Reason};
use crate::stored::Entities;
use crate::uid::EntityUID;
use std::sync::atomic::{AtomicU64, Ordering};

// The identity of a store in this process.
#[derive(Clone, Copy, Debug, PartialEq, Eq, Hash)]
pub(crate) struct StoreId(u64);

impl StoreId {
    // Returns an id that no store had before.
    pub(crate) fn fresh() -> StoreId {
        static NEXT: AtomicU64 = AtomicU64::new(0);
        StoreId(NEXT.fetch_add(1, Ordering::Relaxed))
    }
}

/// The number of a uid in a store, from [`Entities::number`]. A call with a number reads no text.
///
/// A number belongs to one store, and stays valid when the store changes. A copy or a slice has its own numbers.
#[derive(Clone, Copy, Debug, PartialEq, Eq, Hash)]
pub struct UidNumber {
    store: StoreId,
    number: usize,
}

impl Entities {
    /// Returns the number of a uid. The same uid always gets the same number, whether or not the store has an entity
    /// with it. The number stays valid when the store changes. The store never frees a uid that has a number.
    ///
    /// # Errors
    ///
    /// - `NotAUid`: the text is not a uid.
    /// - `Memory`: an allocation failed.
    ///
    /// ```
    /// use cedar_store_proved::ast::{Entity, EntityUID};
    /// use cedar_store_proved::{Entities, TCComputation};
    /// let uid = |text| EntityUID::from_normalized_str(text).unwrap();
    /// let alice = Entity::with_uid(uid(r#"User::"alice""#)).with_parent(uid(r#"Group::"staff""#));
    /// let mut store = Entities::from_entities([alice], TCComputation::ComputeNow).unwrap();
    /// let (alice, staff) = (store.number(r#"User::"alice""#).unwrap(), store.number(r#"Group::"staff""#).unwrap());
    /// assert!(store.is_descendant_of_numbers(alice, staff).unwrap());
    /// store.remove([r#"User::"alice""#], TCComputation::ComputeNow).unwrap();
    /// assert!(!store.contains_number(alice).unwrap());
    /// ```
    pub fn number(&self, uid: impl AsRef<str>) -> Result<UidNumber, Error> {
        let number = self.value_if_ok(self.handle.uid_number(uid.as_ref()))?;
        Ok(UidNumber {
            store: self.id,
            number,
        })
    }

    // Returns the library's number.
    fn raw_number(&self, number: UidNumber) -> Result<usize, Error> {
        if number.store == self.id {
            return Ok(number.number);
        }
        Err(Error::of_reason(Reason::BadArgument))
    }

    /// Returns the uid of a number.
    ///
    /// # Errors
    ///
    /// - `BadArgument`: the number belongs to another store.
    /// - `Memory`: an allocation failed.
    pub fn uid_of_number(&self, number: UidNumber) -> Result<EntityUID, Error> {
        self.check_status(self.handle.number_uid(self.raw_number(number)?))?;
        Ok(EntityUID::from_valid_text(&self.handle.result_text()))
    }

    /// Returns whether the store has an entity with the uid of this number.
    ///
    /// # Errors
    ///
    /// - `BadArgument`: the number belongs to another store.
    pub fn contains_number(&self, number: UidNumber) -> Result<bool, Error> {
        self.value_if_ok(self.handle.has_number(self.raw_number(number)?))
    }

    /// Returns whether an entity is a descendant of a uid, as [`Entities::is_descendant_of`] does, for the numbers of
    /// both. Does not allocate.
    ///
    /// # Errors
    ///
    /// - `BadArgument`: a number belongs to another store.
    /// - `NoEntity`: the store has no entity with the first uid.
    pub fn is_descendant_of_numbers(
        &self,
        child: UidNumber,
        ancestor: UidNumber,
    ) -> Result<bool, Error> {
        let (child, ancestor) = (self.raw_number(child)?, self.raw_number(ancestor)?);
        self.value_if_ok(self.handle.is_descendant_of_numbers(child, ancestor))
    }
}
