//! Implementations of traits of the standard library. Each forwards to one function or to a value of the layer.
use crate::ast::annotation;
use crate::ast::{
    Annotation, Annotations, AnyId, Entity, EntityReference, EntityUID, Expr, ExprValidationError, Literal,
    PartialValue, Policy, PolicySet, StaticPolicy, Template, TemplateBody, TemplateValidationError, Value, ValueKind,
};
use crate::cedar_keyed_hash::KeyedState;
use crate::cedar_uid_sets::{SharedUid, UidSet};
use crate::entities::{Entities, Iter};
#[cfg(feature = "cli")]
use crate::program::Session;
use std::collections::HashSet;
use std::hash::{BuildHasher, RandomState};
use std::mem;
use std::sync::{Arc, OnceLock};

/// Returns a random key, which is drawn once per process from the source that the standard library uses for its hash
/// maps.
impl Default for KeyedState {
    fn default() -> KeyedState {
        static KEYS: OnceLock<(u64, u64)> = OnceLock::new();
        let (seed, key) = *KEYS.get_or_init(|| {
            let drawn = RandomState::new();
            (drawn.hash_one(0u64), drawn.hash_one(1u64) | 1)
        });
        KeyedState::with_keys(seed, key)
    }
}

/// Returns an empty store with the default hasher. [`Entities::with_hasher`] takes another one.
impl Default for Entities {
    fn default() -> Self {
        Entities::new()
    }
}

/// Returns an empty set with the default hasher. [`PolicySet::with_hasher`] takes another one.
impl Default for PolicySet {
    fn default() -> Self {
        PolicySet::new()
    }
}

impl Default for Annotations {
    fn default() -> Self {
        Annotations::new()
    }
}

impl Default for Annotation {
    fn default() -> Self {
        Annotation::with_optional_value(None, None)
    }
}

impl FromIterator<(AnyId, Annotation)> for Annotations {
    fn from_iter<I: IntoIterator<Item = (AnyId, Annotation)>>(pairs: I) -> Self {
        Annotations::try_from_iter(pairs)
    }
}

/// Adds annotations. The last value of a key is kept.
impl Extend<(AnyId, Annotation)> for Annotations {
    fn extend<I: IntoIterator<Item = (AnyId, Annotation)>>(&mut self, pairs: I) {
        *self = mem::take(self).into_iter().chain(pairs).collect();
    }
}

impl<S: BuildHasher + Clone> Entities<S> {
    /// Returns whether the store has an entity with this uid. Does not allocate.
    pub fn contains(&self, uid: &EntityUID) -> bool {
        self.stored(uid).is_some()
    }
}

impl<'a, S: BuildHasher + Clone> IntoIterator for &'a Entities<S> {
    type Item = &'a Entity;
    type IntoIter = Iter<'a>;

    fn into_iter(self) -> Iter<'a> {
        self.iter()
    }
}

impl<'a> IntoIterator for &'a Annotations {
    type Item = (&'a AnyId, &'a Annotation);
    type IntoIter = annotation::Iter<'a>;

    fn into_iter(self) -> annotation::Iter<'a> {
        self.iter()
    }
}

impl From<TemplateBody> for Template {
    fn from(body: TemplateBody) -> Self {
        Template::from_body(body)
    }
}

impl From<StaticPolicy> for Policy {
    fn from(policy: StaticPolicy) -> Self {
        Policy::from_static(policy)
    }
}

impl From<StaticPolicy> for Arc<Template> {
    fn from(policy: StaticPolicy) -> Self {
        Template::link_static_policy(policy).0
    }
}

impl From<EntityUID> for EntityReference {
    fn from(uid: EntityUID) -> Self {
        EntityReference::from_uid(uid)
    }
}

impl From<bool> for Literal {
    fn from(truth: bool) -> Self {
        Literal::Bool(truth)
    }
}

impl From<i64> for Literal {
    fn from(number: i64) -> Self {
        Literal::Long(number)
    }
}

impl From<&str> for Literal {
    fn from(text: &str) -> Self {
        Literal::String(text.into())
    }
}

impl From<String> for Literal {
    fn from(text: String) -> Self {
        Literal::String(text)
    }
}

impl From<EntityUID> for Literal {
    fn from(uid: EntityUID) -> Self {
        Literal::EntityUID(Arc::new(uid))
    }
}

impl From<Arc<EntityUID>> for Literal {
    fn from(uid: Arc<EntityUID>) -> Self {
        Literal::EntityUID(uid)
    }
}

impl From<ExprValidationError> for TemplateValidationError {
    fn from(error: ExprValidationError) -> Self {
        TemplateValidationError::InvalidExpression(error)
    }
}

impl<L: Into<Literal>> From<L> for Value {
    fn from(literal: L) -> Self {
        Value::new(ValueKind::Lit(literal.into()), None)
    }
}

impl<L: Into<Literal>> From<L> for Expr {
    fn from(literal: L) -> Self {
        Expr::val(literal)
    }
}

impl From<Value> for PartialValue {
    fn from(value: Value) -> Self {
        PartialValue::Value(value)
    }
}

// Stores, policy sets and their content can be sent to and shared between threads.
const _: () = {
    const fn are_sent_and_shared<T: Send + Sync + 'static>() {}
    are_sent_and_shared::<Entities>();
    are_sent_and_shared::<Entity>();
    are_sent_and_shared::<Expr>();
    are_sent_and_shared::<Policy>();
    are_sent_and_shared::<PolicySet>();
    are_sent_and_shared::<Template>();
    are_sent_and_shared::<Value>();
};

impl UidSet {
    /// Converts the uids to a set of the standard library.
    pub(crate) fn into_set(self) -> HashSet<EntityUID> {
        self.into_pointers().into_iter().map(SharedUid::into_uid).collect()
    }
}

#[cfg(feature = "cli")]
impl Default for Session {
    fn default() -> Self {
        Session::new()
    }
}
