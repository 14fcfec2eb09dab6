//! A store as a picture: text for Graphviz.
use crate::ast::EntityUID;
use crate::entities::Entities;
use std::collections::{BTreeMap, BTreeSet};
use std::fmt::{self, Write};
use std::hash::BuildHasher;

/// Writes a text in double quotes, as Graphviz reads it.
fn write_quoted(out: &mut impl Write, text: &str) -> fmt::Result {
    out.write_char('"')?;
    for c in text.chars() {
        if matches!(c, '"' | '\\') {
            out.write_char('\\')?;
        }
        out.write_char(c)?;
    }
    out.write_char('"')
}

impl<S: BuildHasher + Clone> Entities<S> {
    /// Writes the hierarchy of the store to `out`, as text for Graphviz.
    ///
    /// There is a box for each entity, with its id as the label. The entities of a type are in a box of the type. An
    /// arrow leads from each entity to each of its parents, and not to its other ancestors. A parent that is not an
    /// entity of the store has a dotted box. Types, entities and arrows are in ascending order of the uid, so equal
    /// stores have equal texts.
    ///
    /// # Errors
    ///
    /// Returns an error only if `out` does.
    ///
    /// # Complexity
    ///
    /// O(n log n) for n entities and parents.
    ///
    /// # Differences from cedar-policy-core
    ///
    /// The original writes entities and arrows in the order of its hash map, and gives parents that are not in the store
    /// no style of their own.
    ///
    /// # Examples
    ///
    /// ```
    /// use cedar_store::ast::{Entity, EntityUID};
    /// use cedar_store::entities::{Entities, TCComputation};
    ///
    /// let mut alice = Entity::with_uid(EntityUID::with_eid_and_type("User", "alice")?);
    /// alice.add_parent(EntityUID::with_eid_and_type("Group", "staff")?);
    /// let store = Entities::from_entities([alice], TCComputation::ComputeNow)?;
    /// assert!(store.to_dot().contains(r#""User::\"alice\"" -> "Group::\"staff\"";"#));
    /// # Ok::<(), Box<dyn std::error::Error>>(())
    /// ```
    pub fn to_dot_str(&self, out: &mut impl Write) -> fmt::Result {
        let mut types: BTreeMap<String, BTreeSet<&EntityUID>> = BTreeMap::new();
        let (mut arrows, mut absent) = (BTreeSet::new(), BTreeSet::new());
        for entity in self {
            let uid = entity.uid();
            types.entry(uid.entity_type().to_string()).or_default().insert(uid);
            for parent in entity.parents() {
                arrows.insert((uid, parent));
                if self.stored(parent).is_none() {
                    absent.insert(parent);
                }
            }
        }
        out.write_str("digraph store {\n  rankdir=BT;\n  node [shape=box];\n")?;
        for (name, uids) in types {
            out.write_str("  subgraph ")?;
            write_quoted(out, &format!("cluster {name}"))?;
            out.write_str(" {\n    label=")?;
            write_quoted(out, &name)?;
            out.write_str(";\n")?;
            for uid in uids {
                out.write_str("    ")?;
                write_quoted(out, &uid.to_string())?;
                out.write_str(" [label=")?;
                write_quoted(out, &uid.eid().escaped())?;
                out.write_str("];\n")?;
            }
            out.write_str("  }\n")?;
        }
        for uid in absent {
            out.write_str("  ")?;
            write_quoted(out, &uid.to_string())?;
            out.write_str(" [style=dotted];\n")?;
        }
        for (child, parent) in arrows {
            out.write_str("  ")?;
            write_quoted(out, &child.to_string())?;
            out.write_str(" -> ")?;
            write_quoted(out, &parent.to_string())?;
            out.write_str(";\n")?;
        }
        out.write_str("}\n")
    }

    /// Returns the text of [`Entities::to_dot_str`].
    #[must_use]
    pub fn to_dot(&self) -> String {
        let mut text = String::new();
        let written = self.to_dot_str(&mut text);
        debug_assert!(written.is_ok(), "writing to a String succeeds");
        text
    }
}
