//! The closures that the original tests, over stores: the ancestors in graphs with and without cycles, and after an
//! edit.
mod short;
use cedar_store_proved::entities::Entities;
use cedar_store_proved::{Error, Reason};
use short::*;

// A graph: the entities with their parents, and the expected ancestors of each entity that has any.
struct Graph {
    entities: &'static str,
    ancestors: &'static [(&'static str, &'static str)],
}

// Graphs without cycles.
const ACYCLIC: [Graph; 7] = [
    // chains of three and of five
    Graph {
        entities: "a b;b c;c",
        ancestors: &[("a", "bc"), ("b", "c"), ("c", "")],
    },
    Graph {
        entities: "a b;b c;c d;d e;e",
        ancestors: &[
            ("a", "bcde"),
            ("b", "cde"),
            ("c", "de"),
            ("d", "e"),
            ("e", ""),
        ],
    },
    // a chain whose names are not in ascending order
    Graph {
        entities: "f b;b z;z h;h e;e",
        ancestors: &[
            ("f", "behz"),
            ("b", "ehz"),
            ("z", "eh"),
            ("h", "e"),
            ("e", ""),
        ],
    },
    // two parents, each with a parent
    Graph {
        entities: "a bd;b c;c;d e;e",
        ancestors: &[("a", "bcde"), ("b", "c"), ("d", "e")],
    },
    // two paths that meet
    Graph {
        entities: "a bf;b cd;c;d e;e h;f g;g e;h",
        ancestors: &[
            ("a", "bcdefgh"),
            ("b", "cdeh"),
            ("d", "eh"),
            ("f", "egh"),
            ("g", "eh"),
            ("h", ""),
        ],
    },
    // some edges of the closure are already present
    Graph {
        entities: "a bcd;b ce;c e;d cf;e;f",
        ancestors: &[
            ("a", "bcdef"),
            ("b", "ce"),
            ("c", "e"),
            ("d", "cef"),
            ("e", ""),
            ("f", ""),
        ],
    },
    // three components
    Graph {
        entities: "a f;b c;c;d e;e h;f g;g;h",
        ancestors: &[("a", "fg"), ("b", "c"), ("d", "eh"), ("e", "h"), ("f", "g")],
    },
];

// Graphs with cycles, and the names on a cycle.
const CYCLIC: [(&str, &str); 6] = [
    ("a b;b b", "b"),
    ("a b;b cd;c a;d", "abc"),
    ("a f;b c;c b;d e;e h;f g;g;h d", "bcdeh"),
    ("a b;b c;c e;d abf;e d;f e", "abcdef"),
    ("a ab;b c;c", "a"),
    ("a b;b c;c d;d a", "abcd"),
];

// Reverses the order of the entities in a text.
fn reversed(spec: &str) -> String {
    spec.split(';').rev().collect::<Vec<_>>().join(";")
}

#[test]
fn stores_compute_the_closure_of_acyclic_graphs() {
    for graph in ACYCLIC {
        let closed = store(graph.entities);
        for (name, expected) in graph.ancestors {
            assert_eq!(
                ancestors(&closed, name),
                *expected,
                "{name} in {}",
                graph.entities
            );
        }
        assert!(closed.validate().is_ok());
    }
}

#[test]
fn the_order_of_entities_does_not_change_the_store() {
    for graph in ACYCLIC {
        assert!(store(graph.entities).deep_eq(&store(&reversed(graph.entities))));
    }
}

#[test]
fn graphs_that_are_not_closed_are_reported() {
    for graph in ACYCLIC {
        let assumed = Entities::from_entities(parse_entities(graph.entities), ASSUME).unwrap();
        assert_eq!(
            assumed.validate().unwrap_err().reason(),
            Reason::NotClosed,
            "{}",
            graph.entities
        );
        let enforced = Entities::from_entities(parse_entities(graph.entities), ENFORCE);
        let error = Error::from(enforced.unwrap_err());
        assert_eq!(error.reason(), Reason::NotClosed);
    }
}

#[test]
fn closed_graphs_stay_unchanged_in_each_mode() {
    for graph in ACYCLIC {
        let closed = store(graph.entities);
        let specs = graph
            .entities
            .split(';')
            .map(|spec| format!("{} {}", &spec[..1], ancestors(&closed, &spec[..1])));
        let spec = specs.collect::<Vec<_>>().join(";");
        for mode in [NOW, ENFORCE, ASSUME] {
            let rebuilt = Entities::from_entities(parse_entities(&spec), mode).unwrap();
            assert!(
                rebuilt.deep_eq(&closed) && rebuilt.validate().is_ok(),
                "{spec}"
            );
        }
    }
}

#[test]
fn cycles_are_reported_in_each_mode() {
    for (spec, on_cycle) in CYCLIC {
        assert_cycle(Entities::from_entities(parse_entities(spec), NOW), on_cycle);
        assert_cycle(
            Entities::from_entities(parse_entities(&reversed(spec)), NOW),
            on_cycle,
        );
        let assumed = Entities::from_entities(parse_entities(spec), ASSUME).unwrap();
        assert!(assumed.validate().is_err());
        assert!(Entities::from_entities(parse_entities(spec), ENFORCE).is_err());
    }
}

#[test]
fn enforcing_reports_the_cycle_of_a_closed_graph() {
    let spec = "a abc;b abc;c abc;d abc";
    assert_cycle(
        Entities::from_entities(parse_entities(spec), ENFORCE),
        "abc",
    );
    let assumed = Entities::from_entities(parse_entities(spec), ASSUME).unwrap();
    assert_cycle(assumed.validate(), "abc");
    assert_error(
        Entities::from_entities(parse_entities("a b;b b"), ENFORCE),
        Reason::Cycle,
        "cycle at A::\"b\"",
    );
}

#[test]
fn upsert_replaces_the_ancestors_of_descendants() {
    let before = store("a b;b c;c");
    assert_eq!(
        (ancestors(&before, "a"), ancestors(&before, "b")),
        ("bc".into(), "c".into())
    );
    let after = upsert(before, "b d;d", NOW).unwrap();
    assert_eq!(
        (ancestors(&after, "a"), ancestors(&after, "b")),
        ("bd".into(), "d".into())
    );
    assert_eq!(
        (ancestors(&after, "c"), ancestors(&after, "d")),
        ("".into(), "".into())
    );
    assert!(after.validate().is_ok());
}

#[test]
fn an_entity_that_is_its_own_parent_is_a_cycle() {
    assert_error(
        Entities::from_entities(parse_entities("s s"), NOW),
        Reason::Cycle,
        "cycle at A::\"s\"",
    );
    let assumed = Entities::from_entities(parse_entities("s s"), ASSUME).unwrap();
    assert_error(assumed.validate(), Reason::Cycle, "cycle at A::\"s\"");
    assert!(store("o").validate().is_ok());
}
