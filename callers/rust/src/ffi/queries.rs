//! Calls that ask who is below a uid and why, and which policies name it.
use super::{
    cedar_policies_naming, cedar_policies_templates_naming, cedar_store_descendants,
    cedar_store_descendants_of_type, cedar_store_path, cedar_store_reaches, OwnedHandle, Sets,
    Stores,
};

impl OwnedHandle<Stores> {
    /// Stores the descendants of a uid as the last result.
    pub(crate) fn descendants(&self, uid: &str) -> u32 {
        self.call_text(cedar_store_descendants, uid)
    }

    /// Stores the descendants of a uid that have a type as the last result.
    pub(crate) fn descendants_of_type(&self, uid: &str, ty: &str) -> u32 {
        let (uid_at, ty_at) = (uid.as_ptr(), ty.as_ptr());
        // SAFETY: the handle is borrowed. Each pointer and the length after it come from one `str`.
        unsafe { cedar_store_descendants_of_type(self.at(), uid_at, uid.len(), ty_at, ty.len()) }
    }

    /// Returns whether there is a path over parents between two uids, and stores a shortest one as the last result.
    pub(crate) fn path(&self, from: &str, to: &str) -> (u32, bool) {
        self.call_bool_of_two(cedar_store_path, from, to)
    }

    /// Returns whether a uid reaches another over parents.
    pub(crate) fn reaches(&self, from: &str, to: &str) -> (u32, bool) {
        self.call_bool_of_two(cedar_store_reaches, from, to)
    }
}

impl OwnedHandle<Sets> {
    /// Stores the ids of the policies that name a uid as the last result.
    pub(crate) fn naming(&self, uid: &str) -> u32 {
        self.call_text(cedar_policies_naming, uid)
    }

    /// Stores the ids of the templates with slots that name a uid as the last result.
    pub(crate) fn templates_naming(&self, uid: &str) -> u32 {
        self.call_text(cedar_policies_templates_naming, uid)
    }
}
