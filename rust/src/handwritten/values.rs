//! Values from values of Rust, and back.
use crate::ast::{EntityUID, Expr, Literal, PartialValue, Value, ValueKind};
use std::collections::{BTreeMap, BTreeSet};
use std::sync::Arc;

impl Value {
    /// Returns the truth value, if this is one.
    ///
    /// ```
    /// use cedar_store::ast::Value;
    ///
    /// assert_eq!(Value::from(true).as_bool(), Some(true));
    /// assert_eq!(Value::from("true").as_bool(), None);
    /// ```
    #[must_use]
    pub fn as_bool(&self) -> Option<bool> {
        match &self.value {
            ValueKind::Lit(Literal::Bool(truth)) => Some(*truth),
            _ => None,
        }
    }

    /// Returns the number, if this is one.
    ///
    /// ```
    /// use cedar_store::ast::Value;
    ///
    /// assert_eq!(Value::from(-3).as_long(), Some(-3));
    /// assert_eq!(Value::from(false).as_long(), None);
    /// ```
    #[must_use]
    pub fn as_long(&self) -> Option<i64> {
        match &self.value {
            ValueKind::Lit(Literal::Long(number)) => Some(*number),
            _ => None,
        }
    }

    /// Returns the text, if this is one. The text of a uid is no text.
    ///
    /// ```
    /// use cedar_store::ast::Value;
    ///
    /// assert_eq!(Value::from("blue").as_str(), Some("blue"));
    /// assert_eq!(Value::from(1).as_str(), None);
    /// ```
    #[must_use]
    pub fn as_str(&self) -> Option<&str> {
        match &self.value {
            ValueKind::Lit(Literal::String(text)) => Some(text),
            _ => None,
        }
    }

    /// Returns the uid, if this is one.
    ///
    /// ```
    /// use cedar_store::ast::{EntityUID, Value};
    ///
    /// let alice: EntityUID = r#"User::"alice""#.parse()?;
    /// assert_eq!(Value::from(alice.clone()).as_entity(), Some(&alice));
    /// assert_eq!(Value::from(r#"User::"alice""#).as_entity(), None);
    /// # Ok::<(), Box<dyn std::error::Error>>(())
    /// ```
    #[must_use]
    pub fn as_entity(&self) -> Option<&EntityUID> {
        match &self.value {
            ValueKind::Lit(Literal::EntityUID(uid)) => Some(uid),
            _ => None,
        }
    }

    /// Returns the elements of a set in ascending order, if this is one.
    ///
    /// ```
    /// use cedar_store::ast::Value;
    ///
    /// let set = Value::from(vec![Value::from(2), Value::from(1), Value::from(2)]);
    /// assert_eq!(set.as_set(), Some(&[Value::from(1), Value::from(2)][..]));
    /// assert_eq!(Value::from(1).as_set(), None);
    /// ```
    #[must_use]
    pub fn as_set(&self) -> Option<&[Value]> {
        match &self.value {
            ValueKind::Set(elements) => Some(elements),
            _ => None,
        }
    }

    /// Returns the fields of a record, if this is one.
    ///
    /// ```
    /// use cedar_store::ast::Value;
    ///
    /// let record = Value::record([("color", "blue")], None);
    /// assert_eq!(record.as_record().and_then(|fields| fields["color"].as_str()), Some("blue"));
    /// assert!(Value::from("color").as_record().is_none());
    /// ```
    #[must_use]
    pub fn as_record(&self) -> Option<&BTreeMap<String, Value>> {
        match &self.value {
            ValueKind::Record(fields) => Some(fields),
            _ => None,
        }
    }
}

impl From<i32> for Literal {
    fn from(number: i32) -> Self {
        Literal::Long(number.into())
    }
}

impl From<u32> for Literal {
    fn from(number: u32) -> Self {
        Literal::Long(number.into())
    }
}

/// Returns the set of the values. Equal values become one.
impl From<Vec<Value>> for Value {
    fn from(values: Vec<Value>) -> Self {
        Value::set(values, None)
    }
}

/// Returns the set of the values.
impl From<BTreeSet<Value>> for Value {
    fn from(values: BTreeSet<Value>) -> Self {
        Value::set(values, None)
    }
}

/// Returns the record with these fields.
impl From<BTreeMap<String, Value>> for Value {
    fn from(fields: BTreeMap<String, Value>) -> Self {
        Value::new(ValueKind::Record(Arc::new(fields)), None)
    }
}

impl<L: Into<Literal>> From<L> for PartialValue {
    fn from(literal: L) -> Self {
        PartialValue::Value(Value::from(literal))
    }
}

/// Returns the value of an expression that is not evaluated yet.
impl From<Expr> for PartialValue {
    fn from(expr: Expr) -> Self {
        PartialValue::Residual(expr)
    }
}
