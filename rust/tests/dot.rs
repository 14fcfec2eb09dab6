//! The text for Graphviz of a store.
use cedar_store::ast::{Entity, EntityUID};
use cedar_store::entities::{Entities, TCComputation};
use std::fmt::{self, Write};

fn uid(ty: &str, eid: &str) -> EntityUID {
    EntityUID::with_eid_and_type(ty, eid).unwrap()
}

fn store(entities: impl IntoIterator<Item = (EntityUID, Vec<EntityUID>)>) -> Entities {
    let entities = entities.into_iter().map(|(own, parents)| {
        let mut entity = Entity::with_uid(own);
        parents.into_iter().for_each(|parent| entity.add_parent(parent));
        entity
    });
    Entities::from_entities(entities, TCComputation::ComputeNow).unwrap()
}

#[test]
fn only_parents_have_arrows_in_ascending_order() {
    let (a, b) = (uid("A", "a"), uid("A", "b"));
    let c = EntityUID::from_normalized_str(r#"N::B::"c""#).unwrap();
    let text = store([(b.clone(), vec![c.clone()]), (a, vec![b])]).to_dot();
    let expected = r#"digraph store {
  rankdir=BT;
  node [shape=box];
  subgraph "cluster A" {
    label="A";
    "A::\"a\"" [label="a"];
    "A::\"b\"" [label="b"];
  }
  "N::B::\"c\"" [style=dotted];
  "A::\"a\"" -> "A::\"b\"";
  "A::\"b\"" -> "N::B::\"c\"";
}
"#;
    assert_eq!(text, expected);
}

#[test]
fn an_empty_store_is_an_empty_graph() {
    assert_eq!(
        store([]).to_dot(),
        "digraph store {\n  rankdir=BT;\n  node [shape=box];\n}\n"
    );
}

#[test]
fn quotes_backslashes_and_control_characters_are_escaped() {
    let text = store([(uid("A", "\"\\\n"), vec![])]).to_dot();
    assert!(
        text.contains(r#"    "A::\"\\\"\\\\\\n\"" [label="\\\"\\\\\\n"];"#),
        "{text}"
    );
}

#[test]
fn an_error_of_the_writer_is_returned() {
    /// A writer with room for a number of bytes.
    struct Room(usize);
    impl Write for Room {
        fn write_str(&mut self, text: &str) -> fmt::Result {
            self.0 = self.0.checked_sub(text.len()).ok_or(fmt::Error)?;
            Ok(())
        }
    }
    let store = store([(uid("A", "a"), vec![uid("A", "b")])]);
    let length = store.to_dot().len();
    for room in 0..length {
        assert!(store.to_dot_str(&mut Room(room)).is_err());
    }
    assert!(store.to_dot_str(&mut Room(length)).is_ok());
}
