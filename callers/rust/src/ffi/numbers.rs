//! The calls that take numbers of uids.
use super::{
    cedar_store_has_number, cedar_store_is_descendant_of_numbers, cedar_store_number_uid,
    cedar_store_uid_number, OwnedHandle, Stores,
};

impl OwnedHandle<Stores> {
    /// Returns the number of a uid.
    pub(crate) fn uid_number(&self, uid: &str) -> (u32, usize) {
        self.call_count(cedar_store_uid_number, uid)
    }

    /// Stores the text of the uid with this number as the last result.
    pub(crate) fn number_uid(&self, number: usize) -> u32 {
        // SAFETY: the handle is borrowed.
        unsafe { cedar_store_number_uid(self.at(), number) }
    }

    /// Returns whether the store has an entity with the uid of this number.
    pub(crate) fn has_number(&self, number: usize) -> (u32, bool) {
        let mut result = false;
        // SAFETY: the handle is borrowed. The last pointer comes from a mutable reference.
        let status = unsafe { cedar_store_has_number(self.at(), number, &mut result) };
        (status, result)
    }

    /// Returns whether the entity with the first uid is a descendant of the second uid, both given by their numbers.
    pub(crate) fn is_descendant_of_numbers(&self, child: usize, ancestor: usize) -> (u32, bool) {
        let (at, mut result) = (self.at(), false);
        // SAFETY: as in `has_number`.
        let status =
            unsafe { cedar_store_is_descendant_of_numbers(at, child, ancestor, &mut result) };
        (status, result)
    }
}
