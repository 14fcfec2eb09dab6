//! Annotations of policies and templates: keys with texts that do not affect any decision.
use crate::by_key::compare_by_key;
use crate::name::{escaped, AnyId, Loc};
use std::collections::{btree_map, BTreeMap};
use std::fmt;

/// The value of an annotation: a text and an optional location. Comparisons ignore the location.
#[derive(Clone, Debug, Default)]
pub struct Annotation {
    /// The text.
    pub val: String,
    /// The location, if it is known.
    pub loc: Option<Loc>,
}

impl Annotation {
    /// Creates an annotation with this text. Without a text, its text is empty.
    pub fn with_optional_value(val: Option<String>, loc: Option<Loc>) -> Annotation {
        let val = val.unwrap_or_default();
        Annotation { val, loc }
    }
}

impl AsRef<str> for Annotation {
    fn as_ref(&self) -> &str {
        &self.val
    }
}

impl Annotation {
    // Returns the comparison key.
    fn key(&self) -> &str {
        &self.val
    }
}

compare_by_key!(Annotation);

impl fmt::Display for Annotation {
    fn fmt(&self, f: &mut fmt::Formatter<'_>) -> fmt::Result {
        write!(f, "\"{}\"", escaped(&self.val))
    }
}

/// The annotations of a policy or a template, in ascending order of their keys.
///
/// ```
/// use cedar_store_proved::ast::{Annotation, Annotations, AnyId};
/// let key = AnyId::from_normalized_str("owner").unwrap();
/// let alice = Annotation::with_optional_value(Some("alice".into()), None);
/// let annotations = Annotations::from_iter([(key.clone(), alice.clone())]);
/// assert_eq!(annotations.get(&key), Some(&alice));
/// assert_eq!(annotations.to_string(), "@owner(\"alice\")\n");
/// ```
#[derive(Clone, Debug, Default, PartialEq, Eq, PartialOrd, Ord, Hash)]
pub struct Annotations {
    pairs: BTreeMap<AnyId, Annotation>,
}

/// An iterator over references to keys and annotations.
pub type Iter<'a> = btree_map::Iter<'a, AnyId, Annotation>;

/// An iterator over keys and annotations, by value.
pub type IntoIter = btree_map::IntoIter<AnyId, Annotation>;

impl Annotations {
    /// Creates an empty collection of annotations.
    pub fn new() -> Annotations {
        Annotations::default()
    }

    /// Collects pairs of keys and annotations. If several pairs have the same key, the last one is used. This function
    /// never fails.
    pub fn try_from_iter(pairs: impl IntoIterator<Item = (AnyId, Annotation)>) -> Annotations {
        pairs.into_iter().collect()
    }

    /// Returns the annotation with this key, if there is one.
    pub fn get(&self, key: &AnyId) -> Option<&Annotation> {
        self.pairs.get(key)
    }

    /// Iterates over the annotations with their keys, in ascending order of the keys.
    pub fn iter(&self) -> Iter<'_> {
        self.pairs.iter()
    }

    /// Returns whether there are no annotations.
    pub fn is_empty(&self) -> bool {
        self.pairs.is_empty()
    }
}

impl From<BTreeMap<AnyId, Annotation>> for Annotations {
    fn from(pairs: BTreeMap<AnyId, Annotation>) -> Annotations {
        Annotations { pairs }
    }
}

impl FromIterator<(AnyId, Annotation)> for Annotations {
    fn from_iter<I: IntoIterator<Item = (AnyId, Annotation)>>(pairs: I) -> Annotations {
        let pairs = pairs.into_iter().collect();
        Annotations { pairs }
    }
}

impl IntoIterator for Annotations {
    type Item = (AnyId, Annotation);
    type IntoIter = IntoIter;

    fn into_iter(self) -> IntoIter {
        self.pairs.into_iter()
    }
}

impl<'a> IntoIterator for &'a Annotations {
    type Item = (&'a AnyId, &'a Annotation);
    type IntoIter = Iter<'a>;

    fn into_iter(self) -> Iter<'a> {
        self.iter()
    }
}

impl fmt::Display for Annotations {
    fn fmt(&self, f: &mut fmt::Formatter<'_>) -> fmt::Result {
        self.iter()
            .try_for_each(|(key, annotation)| writeln!(f, "@{key}({annotation})"))
    }
}
