//! The test cases of the original for closures, under the same names. The original calls its private checks. These
//! tests call `enforce_tc_and_dag`, which reports a missing edge before a cycle.
mod common;

use cedar_store::ast::{Entity, EntityUID};
use cedar_store::transitive_closure::{TCNode, TcError, compute_tc, enforce_tc_and_dag};
use common::{child, graph, with_eid};
use std::collections::{BTreeMap, BTreeSet, HashMap};

type Graph = HashMap<EntityUID, Entity>;

/// Returns whether an edge is missing. This is so if there are edges from a first node to a second and from there to a
/// third, but no edge from the first to the third.
fn is_missing_an_edge(entities: &Graph) -> bool {
    matches!(enforce_tc_and_dag(entities), Err(TcError::MissingTcEdge(_)))
}

/// Returns the eids of the ancestors of a node.
fn ancestor_eids(entities: &Graph, eid: &str) -> BTreeSet<String> {
    entities[&with_eid(eid)]
        .ancestors()
        .map(|uid| uid.eid().as_ref().to_string())
        .collect()
}

/// Returns the keys that each key reaches over one or more edges. Adds edges of edges until nothing changes.
fn reachable(nodes: &[(&str, &[&str])]) -> BTreeMap<String, BTreeSet<String>> {
    let mut all: BTreeMap<String, BTreeSet<String>> = nodes
        .iter()
        .map(|(eid, parents)| {
            (
                (*eid).to_string(),
                parents.iter().map(|parent| (*parent).to_string()).collect(),
            )
        })
        .collect();
    loop {
        let before = all.clone();
        for edges in all.values_mut() {
            let indirect: Vec<_> = edges
                .iter()
                .filter_map(|eid| before.get(eid))
                .flatten()
                .cloned()
                .collect();
            edges.extend(indirect);
        }
        if all == before {
            return all;
        }
    }
}

/// Closes a graph, and asserts that the ancestors of each node are exactly what it reaches.
fn assert_closes(nodes: &[(&str, &[&str])], is_closed_before: bool, cycle: &[&str]) {
    let mut entities = graph(nodes);
    assert_eq!(is_missing_an_edge(&entities), !is_closed_before);
    compute_tc(&mut entities, false).expect("closing without a check for cycles succeeds");
    for (eid, expected) in reachable(nodes) {
        assert_eq!(ancestor_eids(&entities, &eid), expected, "{eid}");
    }
    assert!(!is_missing_an_edge(&entities));
    match enforce_tc_and_dag(&entities) {
        Ok(()) => assert!(cycle.is_empty()),
        Err(TcError::HasCycle(error)) => {
            let named = error.vertex_with_loop().eid().as_ref();
            assert!(cycle.contains(&named), "{named} is on no cycle");
        }
        Err(error) => panic!("{error}"),
    }
    // with the check, an error is returned exactly for a cyclic graph, and the graph is closed nevertheless
    let mut checked = graph(nodes);
    assert_eq!(compute_tc(&mut checked, true).is_err(), !cycle.is_empty());
    for (uid, entity) in &entities {
        assert!(entity.deep_eq(&checked[uid]));
    }
}

#[test]
fn basic() {
    assert_closes(&[("A", &["B"]), ("B", &["C"]), ("C", &[])], false, &[]);
}

#[test]
fn reversed() {
    assert_closes(&[("C", &[]), ("B", &["C"]), ("A", &["B"])], false, &[]);
}

#[test]
fn deeper() {
    assert_closes(
        &[("A", &["B"]), ("B", &["C"]), ("C", &["D"]), ("D", &["E"]), ("E", &[])],
        false,
        &[],
    );
}

#[test]
fn not_alphabetized() {
    let nodes: &[(&str, &[&str])] = &[
        ("ham", &["eggs"]),
        ("bar", &["baz"]),
        ("foo", &["bar"]),
        ("eggs", &[]),
        ("baz", &["ham"]),
    ];
    assert_closes(nodes, false, &[]);
}

#[test]
fn multi_parents() {
    assert_closes(
        &[("A", &["B", "D"]), ("B", &["C"]), ("C", &[]), ("D", &["E"]), ("E", &[])],
        false,
        &[],
    );
}

/// A graph with two paths from its least node to its greatest node.
const DAG: &[(&str, &[&str])] = &[
    ("A", &["B", "F"]),
    ("B", &["C", "D"]),
    ("C", &[]),
    ("D", &["E"]),
    ("E", &["H"]),
    ("F", &["G"]),
    ("G", &["E"]),
    ("H", &[]),
];

#[test]
fn dag() {
    assert_closes(DAG, false, &[]);
}

/// Some edges of the closure are already present.
const ALREADY_EDGES: &[(&str, &[&str])] = &[
    ("A", &["B", "C", "D"]),
    ("B", &["C", "E"]),
    ("C", &["E"]),
    ("D", &["C", "F"]),
    ("E", &[]),
    ("F", &[]),
];

#[test]
fn already_edges() {
    assert_closes(ALREADY_EDGES, false, &[]);
}

const DISJOINT: &[(&str, &[&str])] = &[
    ("A", &["F"]),
    ("B", &["C"]),
    ("C", &[]),
    ("D", &["E"]),
    ("E", &["H"]),
    ("F", &["G"]),
    ("G", &[]),
    ("H", &[]),
];

#[test]
fn disjoint_dag() {
    assert_closes(DISJOINT, false, &[]);
}

#[test]
fn trivial_cycle() {
    assert_closes(&[("A", &["B"]), ("B", &["B"])], true, &["B"]);
}

const NONTRIVIAL_CYCLE: &[(&str, &[&str])] = &[("A", &["B"]), ("B", &["C", "D"]), ("C", &["A"]), ("D", &[])];

#[test]
fn nontrivial_cycle() {
    assert_closes(NONTRIVIAL_CYCLE, false, &["A", "B", "C"]);
}

const DISJOINT_CYCLES: &[(&str, &[&str])] = &[
    ("A", &["F"]),
    ("B", &["C"]),
    ("C", &["B"]),
    ("D", &["E"]),
    ("E", &["H"]),
    ("F", &["G"]),
    ("G", &[]),
    ("H", &["D"]),
];

#[test]
fn disjoint_cycles() {
    assert_closes(DISJOINT_CYCLES, false, &["B", "C", "D", "E", "H"]);
}

const INTERSECTING_CYCLES: &[(&str, &[&str])] = &[
    ("A", &["B"]),
    ("B", &["C"]),
    ("C", &["E"]),
    ("D", &["A", "B", "F"]),
    ("E", &["D"]),
    ("F", &["E"]),
];

#[test]
fn intersecting_cycles() {
    assert_closes(INTERSECTING_CYCLES, false, &["A", "B", "C", "D", "E", "F"]);
}

#[test]
fn updated() {
    let mut entities = graph(&[("A", &["B"]), ("B", &["C"]), ("C", &[])]);
    compute_tc(&mut entities, false).unwrap();
    assert!(entities[&with_eid("A")].has_edge_to(&with_eid("C")));
    assert!(!entities[&with_eid("A")].has_edge_to(&with_eid("D")));
    // B has an edge to D now, and A is replaced by a node without the ancestors that it had over B
    for entity in [child("A", &["B"]), child("B", &["D"]), child("D", &[])] {
        entities.insert(entity.uid().clone(), entity);
    }
    assert!(is_missing_an_edge(&entities));
    compute_tc(&mut entities, false).unwrap();
    for (eid, expected) in [("A", vec!["B", "D"]), ("B", vec!["D"]), ("C", vec![]), ("D", vec![])] {
        assert_eq!(
            ancestor_eids(&entities, eid),
            expected.into_iter().map(String::from).collect(),
            "{eid}"
        );
    }
    assert!(enforce_tc_and_dag(&entities).is_ok());
}

/// The original compares two algorithms. This test compares the closure with the reachable keys.
#[test]
fn cyclic_tc_oracle_on_dags() {
    assert_closes(DAG, false, &[]);
    assert_closes(DISJOINT, false, &[]);
    assert_closes(ALREADY_EDGES, false, &[]);
}

#[test]
fn cyclic_tc_oracle_on_cycles() {
    assert_closes(NONTRIVIAL_CYCLE, false, &["A", "B", "C"]);
    assert_closes(DISJOINT_CYCLES, false, &["B", "C", "D", "E", "H"]);
}

/// Cycles of up to eleven nodes, with a node below and a node above.
#[test]
fn compute_tc_no_dag_matches_cyclic_tc_on_cycles() {
    let names: Vec<String> = (0..14).map(|number| format!("n{number}")).collect();
    for size in 1..12 {
        let ring = &names[..size];
        let parents: Vec<Vec<&str>> = (0..size)
            .map(|at| {
                let next = ring[(at + 1) % size].as_str();
                if at == 0 { vec![next, "above"] } else { vec![next] }
            })
            .collect();
        let below = [ring[0].as_str()];
        let mut nodes: Vec<(&str, &[&str])> = ring
            .iter()
            .zip(&parents)
            .map(|(eid, parents)| (eid.as_str(), parents.as_slice()))
            .collect();
        nodes.push(("below", &below));
        nodes.push(("above", &[]));
        assert_closes(&nodes, false, &ring.iter().map(String::as_str).collect::<Vec<_>>());
    }
}

#[test]
fn self_loop_with_grandchild() {
    assert_closes(&[("A", &["A", "B"]), ("B", &["C"]), ("C", &[])], false, &["A"]);
}
