//! The path of a name.

use crate::cedar_ids::Id;
use std::fmt;
use std::ops::Deref;
use std::sync::Arc;

/// The identifiers of a name before the last one.
///
/// Most names have no path. Such a name allocates nothing for it, and its clones count nothing.
#[derive(Clone, Default, PartialEq, Eq, PartialOrd, Ord)]
pub(crate) struct NamePath(Option<Arc<Vec<Id>>>);

impl From<Vec<Id>> for NamePath {
    fn from(path: Vec<Id>) -> Self {
        Self((!path.is_empty()).then(|| Arc::new(path)))
    }
}

impl Deref for NamePath {
    type Target = [Id];

    #[inline]
    fn deref(&self) -> &[Id] {
        self.0.as_deref().map_or(&[], Vec::as_slice)
    }
}

impl fmt::Debug for NamePath {
    fn fmt(&self, f: &mut fmt::Formatter<'_>) -> fmt::Result {
        (**self).fmt(f)
    }
}
