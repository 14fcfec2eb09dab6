//! Deep copies of stores and policy sets, which share nothing with their originals and can be sent to other threads.
use crate::error::Error;
use crate::errors::PolicySetError;
use crate::ffi::{DeepCopyHandle, Sets, Stores};
use crate::policies_cache::Renaming;
use crate::policy::PolicyID;
use crate::policy_set::PolicySet;
use crate::stored::Entities;

/// A deep copy of a store, which shares nothing with any other store. [`Entities::deep_copy`] and
/// [`Entities::slice_deep_copy`] create it. It can be sent to another thread, which unwraps it with
/// [`EntitiesDeepCopy::into_inner`]. Until then it cannot be queried.
///
/// ```
/// use cedar_store_proved::ast::{Entity, EntityUID};
/// use cedar_store_proved::{Entities, TCComputation};
/// let uid = |text| EntityUID::from_normalized_str(text).unwrap();
/// let (a, b) = (uid(r#"A::"a""#), uid(r#"A::"b""#));
/// let child = Entity::with_uid(a.clone()).with_parent(b.clone());
/// let store = Entities::from_entities([child], TCComputation::ComputeNow).unwrap();
/// let copy = store.deep_copy().unwrap();
/// let other = std::thread::spawn(move || copy.into_inner().is_descendant_of(&a, &b).unwrap());
/// assert!(other.join().unwrap());
/// ```
///
/// Only one thread can use it at a time: it is not `Sync`.
///
/// ```compile_fail
/// fn shares<T: Sync>(_: T) {}
/// shares(cedar_store_proved::entities::Entities::new().deep_copy().unwrap());
/// ```
pub struct EntitiesDeepCopy {
    handle: DeepCopyHandle<Stores>,
}

impl EntitiesDeepCopy {
    pub(crate) fn of(handle: DeepCopyHandle<Stores>) -> EntitiesDeepCopy {
        EntitiesDeepCopy { handle }
    }

    /// Returns the store, which from now on belongs to the current thread.
    pub fn into_inner(self) -> Entities {
        Entities::from_handle(self.handle.into_handle())
    }
}

/// A deep copy of a policy set, which shares nothing with any other set. [`PolicySet::deep_copy`] creates it. It can
/// be sent to another thread, which unwraps it with [`PolicySetDeepCopy::into_inner`].
///
/// ```
/// use cedar_store_proved::ast::{Effect, PolicySet};
/// let mut set = PolicySet::new();
/// set.bind_static("p", Effect::Permit).unwrap();
/// let copy = set.deep_copy().unwrap();
/// let other = std::thread::spawn(move || copy.into_inner().to_string());
/// assert_eq!(other.join().unwrap(), set.to_string());
/// ```
///
/// Only one thread can use it at a time: it is not `Sync`.
///
/// ```compile_fail
/// fn shares<T: Sync>(_: T) {}
/// shares(cedar_store_proved::ast::PolicySet::new().deep_copy().unwrap());
/// ```
pub struct PolicySetDeepCopy {
    handle: DeepCopyHandle<Sets>,
}

impl PolicySetDeepCopy {
    pub(crate) fn of(handle: DeepCopyHandle<Sets>) -> PolicySetDeepCopy {
        PolicySetDeepCopy { handle }
    }

    /// Merges a deep copy of the policies and templates of another set into this one. Otherwise works like
    /// [`PolicySet::merge_policyset`]. Returns the renamed ids.
    ///
    /// # Errors
    ///
    /// - `Occupied`: `rename` is false, and both sets bind the id to different items. The error names the first such
    ///   id.
    /// - `Other`: an allocation failed.
    ///
    /// ```
    /// use cedar_store_proved::ast::{Effect, PolicySet};
    /// let (mut one, mut other) = (PolicySet::new(), PolicySet::new());
    /// one.bind_static("p", Effect::Permit).unwrap();
    /// other.bind_static("p", Effect::Forbid).unwrap();
    /// let mut copy = one.deep_copy().unwrap();
    /// assert!(copy.merge_policyset(&other, false).is_err());
    /// assert_eq!(copy.merge_policyset(&other, true).unwrap().len(), 1);
    /// one.merge_policyset(&other, true).unwrap();
    /// assert!(copy.into_inner() == one);
    /// ```
    pub fn merge_policyset(
        &mut self,
        other: &PolicySet,
        rename: bool,
    ) -> Result<Renaming, PolicySetError> {
        let status = self.handle.merge(&other.handle, rename);
        Error::check_status(status, || self.handle.error_text())?;
        Ok(Renaming::of(
            self.handle.map_results(|id| PolicyID::from_string(id)),
        ))
    }

    /// Returns the set, which from now on belongs to the current thread.
    pub fn into_inner(self) -> PolicySet {
        PolicySet::from_handle(self.handle.into_handle())
    }
}
