//! Values: literals, sets, records and extension values. Also partial values, which can be residual expressions.
use crate::expr::Expr;
use crate::name::{escaped, Loc, Name};
use crate::uid::EntityUID;
use crate::value_walk::{compare, feed, write_value};
use std::cmp::Ordering;
use std::collections::BTreeMap;
use std::fmt;
use std::hash::{Hash, Hasher};
use std::sync::Arc;

/// A literal, which is a leaf of a value or an expression. Literals are ordered by kind first.
#[derive(Clone, Debug, PartialEq, Eq, PartialOrd, Ord, Hash)]
pub enum Literal {
    /// A Boolean.
    Bool(bool),
    /// A 64-bit integer.
    Long(i64),
    /// A string.
    String(String),
    /// The uid of an entity.
    EntityUID(Arc<EntityUID>),
}

impl fmt::Display for Literal {
    fn fmt(&self, f: &mut fmt::Formatter<'_>) -> fmt::Result {
        match self {
            Literal::Bool(truth) => write!(f, "{truth}"),
            Literal::Long(number) => write!(f, "{number}"),
            Literal::String(text) => write!(f, "\"{}\"", escaped(text)),
            Literal::EntityUID(uid) => write!(f, "{uid}"),
        }
    }
}

/// A value: a literal, a set, a record or an extension value.
///
/// Equality, order and hash use only the content and ignore locations. Literals are less than sets, sets are less than
/// records, and records are less than extension values. Values of one kind are ordered by their content. `Display`
/// writes `[V, W]`, `{"k": V}` or `f("text")`.
///
/// A value can have any depth: comparing, hashing, writing and dropping it do not recurse. A store accepts at most
/// 1,000 levels and returns `Reason::TooDeep` for more. `clone` shares the parts of the value.
///
/// ```
/// use cedar_store_proved::ast::Value;
/// let set = Value::set([Value::from(2), Value::from(1), Value::from(2)], None);
/// assert_eq!(set.to_string(), "[1, 2]");
/// // of several values of a key the last stays
/// let record = Value::record([("k", Value::from(true)), ("k", set)], None);
/// assert_eq!(record.to_string(), r#"{"k": [1, 2]}"#);
/// ```
#[derive(Clone)]
pub struct Value {
    /// The content of the value.
    pub value: ValueKind,
    /// The location in a source text, if it is known.
    pub loc: Option<Loc>,
}

/// The kinds of values.
#[derive(Clone, Debug)]
pub enum ValueKind {
    /// A literal.
    Lit(Literal),
    /// A set. Its elements must be in ascending order without duplicates, as [`Value::set`] ensures. This is not
    /// checked, but a store sorts the elements.
    Set(Arc<Vec<Value>>),
    /// A record, with its keys in byte order.
    Record(Arc<BTreeMap<String, Value>>),
    /// An extension value.
    ExtensionValue(Arc<ExtensionValue>),
}

/// A call of an extension function on a text, for example `ip("10.0.0.1")`. The call is not evaluated.
#[derive(Clone, Debug, PartialEq, Eq, PartialOrd, Ord, Hash)]
pub struct ExtensionValue {
    /// The function.
    pub func: Name,
    /// The argument.
    pub arg: String,
}

impl Value {
    /// Creates a value with this content, and a location.
    pub fn new(value: ValueKind, loc: Option<Loc>) -> Value {
        Value { value, loc }
    }

    /// Creates a set of values. Sorts them, and keeps the first of several equal values.
    pub fn set(values: impl IntoIterator<Item = Value>, loc: Option<Loc>) -> Value {
        let mut elements: Vec<Value> = values.into_iter().collect();
        elements.sort();
        elements.dedup();
        Value::new(ValueKind::Set(Arc::new(elements)), loc)
    }

    /// Creates a record from pairs of keys and values. If several pairs have the same key, the last one is used.
    pub fn record(
        pairs: impl IntoIterator<Item = (impl Into<String>, impl Into<Value>)>,
        loc: Option<Loc>,
    ) -> Value {
        let pairs = pairs.into_iter();
        let fields = pairs
            .map(|(key, value)| (key.into(), value.into()))
            .collect();
        Value::new(ValueKind::Record(Arc::new(fields)), loc)
    }
}

// Moves the parts of a value onto a list. Shared parts are only released, because other values use them.
fn push_operands(kind: &mut ValueKind, pending: &mut Vec<Value>) {
    if matches!(kind, ValueKind::Lit(_) | ValueKind::ExtensionValue(_)) {
        return;
    }
    match std::mem::replace(kind, ValueKind::Lit(Literal::Bool(false))) {
        ValueKind::Set(elements) => pending.extend(Arc::into_inner(elements).unwrap_or_default()),
        ValueKind::Record(fields) => {
            pending.extend(Arc::into_inner(fields).unwrap_or_default().into_values());
        }
        _ => {}
    }
}

impl Drop for Value {
    /// Drops the value without recursion.
    fn drop(&mut self) {
        let mut pending = Vec::new();
        push_operands(&mut self.value, &mut pending);
        while let Some(mut value) = pending.pop() {
            push_operands(&mut value.value, &mut pending);
        }
    }
}

impl PartialEq for Value {
    fn eq(&self, other: &Value) -> bool {
        compare(&self.value, &other.value).is_eq()
    }
}

impl Eq for Value {}

impl PartialOrd for Value {
    fn partial_cmp(&self, other: &Value) -> Option<Ordering> {
        Some(self.cmp(other))
    }
}

impl Ord for Value {
    fn cmp(&self, other: &Value) -> Ordering {
        compare(&self.value, &other.value)
    }
}

impl Hash for Value {
    fn hash<H: Hasher>(&self, state: &mut H) {
        feed(&self.value, state);
    }
}

impl fmt::Display for Value {
    fn fmt(&self, f: &mut fmt::Formatter<'_>) -> fmt::Result {
        write_value(&self.value, f)
    }
}

impl fmt::Debug for Value {
    /// Writes `Value(..)` around the output of `Display`.
    fn fmt(&self, f: &mut fmt::Formatter<'_>) -> fmt::Result {
        write!(f, "Value({self})")
    }
}

impl PartialEq for ValueKind {
    fn eq(&self, other: &ValueKind) -> bool {
        compare(self, other).is_eq()
    }
}

impl Eq for ValueKind {}

impl Hash for ValueKind {
    fn hash<H: Hasher>(&self, state: &mut H) {
        feed(self, state);
    }
}

impl fmt::Display for ExtensionValue {
    fn fmt(&self, f: &mut fmt::Formatter<'_>) -> fmt::Result {
        write!(f, "{}(\"{}\")", self.func, escaped(&self.arg))
    }
}

/// The value of an attribute or a tag: a value, or a residual expression.
///
/// ```
/// use cedar_store_proved::ast::{Expr, PartialValue, Unknown, Value};
/// let value = PartialValue::from(Value::from("it's"));
/// assert_eq!(value.to_string(), r#""it\'s""#);
/// let rest = PartialValue::Residual(Expr::unknown(Unknown::new_untyped("x")));
/// assert!(value != rest && rest.to_string() == r#"unknown("x")"#);
/// ```
#[derive(Clone, Debug, PartialEq, Eq, Hash)]
pub enum PartialValue {
    /// A value.
    Value(Value),
    /// A residual expression.
    Residual(Expr),
}

impl fmt::Display for PartialValue {
    fn fmt(&self, f: &mut fmt::Formatter<'_>) -> fmt::Result {
        match self {
            PartialValue::Value(value) => value.fmt(f),
            PartialValue::Residual(expr) => expr.fmt(f),
        }
    }
}

// Implements conversions into a type, each by a function.
macro_rules! conversions {
    ($target:ty: $($source:ty => $convert:expr;)*) => {
        $(impl From<$source> for $target {
            fn from(source: $source) -> $target {
                $convert(source)
            }
        })*
    };
}

conversions!(Literal:
    bool => Literal::Bool;
    i64 => Literal::Long;
    &str => |text: &str| Literal::String(text.into());
    String => Literal::String;
    EntityUID => |uid| Literal::EntityUID(Arc::new(uid));
);

impl<L: Into<Literal>> From<L> for Value {
    fn from(literal: L) -> Value {
        Value::new(ValueKind::Lit(literal.into()), None)
    }
}

impl From<ExtensionValue> for Value {
    fn from(value: ExtensionValue) -> Value {
        Value::new(ValueKind::ExtensionValue(Arc::new(value)), None)
    }
}

conversions!(PartialValue:
    Value => PartialValue::Value;
    Expr => PartialValue::Residual;
);
