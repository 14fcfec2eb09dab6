//! Handles that can be sent to another thread. The library functions whose names end in `_deep_copy` create them.
use super::{
    cedar_policies_merge_deep_copy, cedar_store_slice_deep_copy, Handle, Kind, OwnedHandle, Sets,
    Stores,
};
use crate::lists::Lists;

/// A handle that shares nothing with any other handle, so it can be sent to another thread.
pub(crate) struct DeepCopyHandle<K: Kind>(OwnedHandle<K>);

// SAFETY: only `OwnedHandle::open_deep_copy` creates a `DeepCopyHandle`, from a new handle that was filled by a library
// function whose name ends in `_deep_copy`. By the rules of `cedar.h`, the content of this handle shares nothing with
// another handle. While the handle is in the `DeepCopyHandle`, only the functions in this file use it: they merge by
// deep copies or copy an output. `into_handle` moves the handle to the thread that calls it. Sending a value to another
// thread orders all earlier uses before the later ones. Two threads never use the handle at the same time, because
// `DeepCopyHandle` is not `Sync`: the handle in it is not.
unsafe impl<K: Kind> Send for DeepCopyHandle<K> {}

impl<K: Kind> DeepCopyHandle<K> {
    /// Returns the handle, which from now on belongs to the current thread.
    pub(crate) fn into_handle(self) -> OwnedHandle<K> {
        self.0
    }

    /// Converts each text of the last result.
    pub(crate) fn map_results<T>(&self, convert: impl Fn(&str) -> T) -> Vec<T> {
        self.0.map_results(convert)
    }

    /// Returns the message of the last error.
    pub(crate) fn error_text(&self) -> Vec<u8> {
        self.0.error_text()
    }
}

impl DeepCopyHandle<Sets> {
    /// Merges deep copies of the content of another set into this one. Stores the renamed ids as the last result.
    pub(crate) fn merge(&mut self, other: &OwnedHandle<Sets>, rename: bool) -> u32 {
        // SAFETY: one handle is borrowed mutably, so the other one is a different handle.
        unsafe { cedar_policies_merge_deep_copy(self.0.at(), other.at(), rename) }
    }
}

impl<K: Kind> OwnedHandle<K> {
    // Creates a handle that shares nothing. `call` must be a library function whose name ends in `_deep_copy`.
    fn open_deep_copy(call: impl FnOnce(*mut Handle) -> u32) -> Result<DeepCopyHandle<K>, u32> {
        OwnedHandle::open_with(call).map(DeepCopyHandle)
    }

    /// Returns a deep copy.
    pub(crate) fn deep_copy(&self) -> Result<DeepCopyHandle<K>, u32> {
        // SAFETY: one handle is borrowed, and the other is new.
        OwnedHandle::open_deep_copy(|to| unsafe { (K::CALLS.deep_copy)(self.at(), to) })
    }
}

impl OwnedHandle<Stores> {
    /// Returns a slice of the store at these uids, which shares nothing with the store.
    pub(crate) fn slice_deep_copy(&self, lists: &Lists) -> Result<DeepCopyHandle<Stores>, u32> {
        let Lists { text, uids, .. } = lists;
        let (text_at, uids_at) = (text.as_ptr(), uids.as_ptr());
        // SAFETY: one handle is borrowed, and the other is new. The pointers and the lengths come from borrowed slices.
        OwnedHandle::open_deep_copy(|to| unsafe {
            cedar_store_slice_deep_copy(self.at(), to, text_at, text.len(), uids_at, uids.len())
        })
    }
}
