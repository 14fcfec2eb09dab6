//! Comparison, hashing and writing of values without recursion.
use crate::name::escaped;
use crate::value::{Value, ValueKind};
use std::cmp::Ordering;
use std::collections::btree_map;
use std::fmt;
use std::hash::{Hash, Hasher};
use std::slice;
use std::sync::Arc;

// The rest of two sets or of two records that are compared.
enum Pair<'a> {
    Sets(slice::Iter<'a, Value>, slice::Iter<'a, Value>),
    Records(
        btree_map::Iter<'a, String, Value>,
        btree_map::Iter<'a, String, Value>,
    ),
}

// The next step of a comparison.
enum Step<'a> {
    // The result of the comparison of the two sets or records, or of two keys.
    Decided(Ordering),
    // Two values to compare.
    Values(&'a Value, &'a Value),
}

impl<'a> Pair<'a> {
    fn next(&mut self) -> Step<'a> {
        match self {
            Pair::Sets(ones, others) => match (ones.next(), others.next()) {
                (Some(one), Some(other)) => Step::Values(one, other),
                (one, other) => Step::Decided(one.is_some().cmp(&other.is_some())),
            },
            Pair::Records(ones, others) => match (ones.next(), others.next()) {
                (Some((key, one)), Some((other_key, other))) => match key.cmp(other_key) {
                    Ordering::Equal => Step::Values(one, other),
                    decided => Step::Decided(decided),
                },
                (one, other) => Step::Decided(one.is_some().cmp(&other.is_some())),
            },
        }
    }
}

// Returns the position of a kind among the four.
fn place(kind: &ValueKind) -> u8 {
    match kind {
        ValueKind::Lit(_) => 0,
        ValueKind::Set(_) => 1,
        ValueKind::Record(_) => 2,
        ValueKind::ExtensionValue(_) => 3,
    }
}

// Compares two kinds, if that is possible without their parts. Otherwise pushes their parts.
fn begin<'a>(one: &'a ValueKind, other: &'a ValueKind, pending: &mut Vec<Pair<'a>>) -> Ordering {
    match (one, other) {
        (ValueKind::Lit(one), ValueKind::Lit(other)) => return one.cmp(other),
        (ValueKind::ExtensionValue(one), ValueKind::ExtensionValue(other)) => {
            return one.cmp(other)
        }
        (ValueKind::Set(one), ValueKind::Set(other)) if Arc::ptr_eq(one, other) => {}
        (ValueKind::Record(one), ValueKind::Record(other)) if Arc::ptr_eq(one, other) => {}
        (ValueKind::Set(one), ValueKind::Set(other)) => {
            pending.push(Pair::Sets(one.iter(), other.iter()));
        }
        (ValueKind::Record(one), ValueKind::Record(other)) => {
            pending.push(Pair::Records(one.iter(), other.iter()));
        }
        _ => return place(one).cmp(&place(other)),
    }
    Ordering::Equal
}

/// Compares two values: by kind, and then by content. The first difference between elements or pairs decides. If there
/// is none, the lengths decide.
pub(crate) fn compare(one: &ValueKind, other: &ValueKind) -> Ordering {
    let mut pending = Vec::new();
    let mut decided = begin(one, other, &mut pending);
    while let (Ordering::Equal, Some(pair)) = (decided, pending.last_mut()) {
        match pair.next() {
            Step::Values(one, other) => decided = begin(&one.value, &other.value, &mut pending),
            Step::Decided(ordering) => {
                decided = ordering;
                pending.pop();
            }
        }
    }
    decided
}

/// Hashes a value: each kind with its own data and the number of its parts, in preorder.
pub(crate) fn feed<H: Hasher>(kind: &ValueKind, state: &mut H) {
    let mut pending = vec![kind];
    while let Some(kind) = pending.pop() {
        place(kind).hash(state);
        match kind {
            ValueKind::Lit(literal) => literal.hash(state),
            ValueKind::Set(elements) => {
                elements.len().hash(state);
                pending.extend(elements.iter().map(|element| &element.value));
            }
            ValueKind::Record(fields) => {
                fields.len().hash(state);
                fields.keys().for_each(|key| key.hash(state));
                pending.extend(fields.values().map(|value| &value.value));
            }
            ValueKind::ExtensionValue(extension) => extension.hash(state),
        }
    }
}

// A part of a value that is still to be written.
enum Piece<'a> {
    Mark(&'static str),
    Key(&'a str),
    Kind(&'a ValueKind),
}

// Pushes the parts of a value in reverse order, so that the first part is popped first.
fn push_elements<'a>(kind: &'a ValueKind, pending: &mut Vec<Piece<'a>>) {
    let first = pending.len();
    match kind {
        ValueKind::Set(elements) => {
            for (place, element) in elements.iter().enumerate() {
                pending.push(Piece::Mark(if place == 0 { "[" } else { ", " }));
                pending.push(Piece::Kind(&element.value));
            }
            pending.push(Piece::Mark(if elements.is_empty() { "[]" } else { "]" }));
        }
        ValueKind::Record(fields) => {
            for (place, (key, value)) in fields.iter().enumerate() {
                pending.push(Piece::Mark(if place == 0 { "{" } else { ", " }));
                pending.push(Piece::Key(key));
                pending.push(Piece::Kind(&value.value));
            }
            pending.push(Piece::Mark(if fields.is_empty() { "{}" } else { "}" }));
        }
        ValueKind::Lit(_) | ValueKind::ExtensionValue(_) => {}
    }
    pending[first..].reverse();
}

/// Writes a value.
pub(crate) fn write_value(kind: &ValueKind, f: &mut fmt::Formatter<'_>) -> fmt::Result {
    let mut pending = vec![Piece::Kind(kind)];
    while let Some(piece) = pending.pop() {
        match piece {
            Piece::Mark(mark) => f.write_str(mark)?,
            Piece::Key(key) => write!(f, "\"{}\": ", escaped(key))?,
            Piece::Kind(ValueKind::Lit(literal)) => write!(f, "{literal}")?,
            Piece::Kind(ValueKind::ExtensionValue(extension)) => write!(f, "{extension}")?,
            Piece::Kind(kind) => push_elements(kind, &mut pending),
        }
    }
    Ok(())
}
