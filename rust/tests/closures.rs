//! Closures of graphs with custom nodes: equal keys, complete graphs, long chains, and the messages of errors.
#[path = "common/numbered.rs"]
mod numbered;

use cedar_store::transitive_closure::{
    HasCycle, MissingTcEdge, TCNode, TcError, compute_tc, compute_tc_counted, enforce_tc_and_dag, repair_tc_counted,
};
use numbered::Numbered;
use std::collections::{HashMap, HashSet};
use std::fmt::{self, Display, Formatter};
use std::hash::{Hash, Hasher};

/// A key that is compared only by its number. The instance tells equal keys apart.
#[derive(Clone, Debug)]
struct Label {
    number: u64,
    instance: u64,
}

impl PartialEq for Label {
    fn eq(&self, other: &Label) -> bool {
        self.number == other.number
    }
}

impl Eq for Label {}

impl Hash for Label {
    fn hash<H: Hasher>(&self, state: &mut H) {
        self.number.hash(state);
    }
}

impl Display for Label {
    fn fmt(&self, f: &mut Formatter<'_>) -> fmt::Result {
        write!(f, "{}", self.number)
    }
}

struct Labelled {
    label: Label,
    targets: HashSet<Label>,
}

impl TCNode<Label> for Labelled {
    fn get_key(&self) -> Label {
        self.label.clone()
    }

    fn add_edge_to(&mut self, key: Label) {
        self.targets.insert(key);
    }

    fn out_edges(&self) -> Box<dyn Iterator<Item = &Label> + '_> {
        Box::new(self.targets.iter())
    }

    fn has_edge_to(&self, key: &Label) -> bool {
        self.targets.contains(key)
    }

    fn reset_edges(&mut self) {}
}

fn label(number: u64, instance: u64) -> Label {
    Label { number, instance }
}

/// Returns nodes with one edge each. Their instances differ.
fn labelled_nodes(edges: &[(u64, u64)]) -> HashMap<Label, Labelled> {
    let node = |(instance, (from, to)): (u64, &(u64, u64))| {
        let targets = HashSet::from([label(*to, 100)]);
        let own_label = label(*from, instance);
        (
            label(*from, 50),
            Labelled {
                label: own_label,
                targets,
            },
        )
    };
    (0..).zip(edges).map(node).collect()
}

#[test]
fn keys_that_compare_equal_are_the_same_key() {
    let mut nodes = labelled_nodes(&[(1, 2), (2, 3)]);
    assert!(compute_tc(&mut nodes, true).is_ok());
    let has_edge = |from: u64, to: u64| {
        nodes
            .get(&label(from, 8))
            .is_some_and(|node| node.has_edge_to(&label(to, 9)))
    };
    assert!(has_edge(1, 2) && has_edge(1, 3) && has_edge(2, 3) && !has_edge(3, 1) && !has_edge(2, 1));
    // each node keeps its own key
    assert!(
        [1, 2]
            .iter()
            .all(|number| nodes[&label(*number, 8)].label.instance + 1 == *number)
    );
}

#[test]
fn cycle_error_names_a_key_on_the_cycle() {
    match compute_tc(&mut labelled_nodes(&[(1, 2), (2, 1), (3, 1)]), true) {
        Err(TcError::HasCycle(cycle)) => assert!([1, 2].contains(&cycle.vertex_with_loop().number)),
        _ => panic!("expected an error for a cycle"),
    }
}

fn nodes_of(edges: impl IntoIterator<Item = (u32, Vec<u32>)>) -> HashMap<u32, Numbered> {
    edges
        .into_iter()
        .map(|(key, edges)| (key, Numbered(key, edges.into_iter().collect())))
        .collect()
}

#[test]
fn complete_graph_of_fifty_nodes() {
    let complete_graph = || nodes_of((0..50).map(|key| (key, (0..50).filter(|to| *to != key).collect())));
    let mut nodes = complete_graph();
    let work = compute_tc_counted(&mut nodes, false).expect("the call succeeds");
    assert_eq!(work.reads, 50);
    assert!(nodes.values().all(|node| node.1.len() == 50));
    assert!(matches!(
        compute_tc(&mut complete_graph(), true),
        Err(TcError::HasCycle(_))
    ));
}

#[test]
fn chain_star_and_ring() {
    let mut chain = nodes_of((1..=2_000).map(|key| (key, vec![key + 1])));
    let work = compute_tc_counted(&mut chain, true).expect("no cycle");
    assert_eq!((work.reads, work.closings), (2_000, 2_000));
    assert_eq!(chain.values().map(|node| node.1.len()).sum::<usize>(), 2_001_000);
    let mut star = nodes_of((1..=100_000).map(|key| (key, vec![0])).chain([(0, vec![100_001])]));
    let work = compute_tc_counted(&mut star, true).expect("no cycle");
    assert_eq!((work.reads, work.closings), (100_001, 100_001));
    assert_eq!(star.values().map(|node| node.1.len()).sum::<usize>(), 200_001);
    let mut ring = nodes_of((0..2_000).map(|key| (key, vec![(key + 1) % 2_000])));
    compute_tc(&mut ring, false).expect("the call succeeds");
    assert!(ring.values().all(|node| node.1.len() == 2_000));
}

/// The part of a chain of 100,000 keys in which only the last 50 have nodes.
#[test]
fn end_of_a_long_chain() {
    let mut nodes = nodes_of((99_951..=100_000).map(|key| (key, if key < 100_000 { vec![key + 1] } else { vec![] })));
    compute_tc(&mut nodes, false).expect("the call succeeds");
    assert_eq!(nodes.values().map(|node| node.1.len()).sum::<usize>(), 1_225);
    assert!(nodes[&99_951].has_edge_to(&100_000));
}

#[test]
fn repair_closes_changed_nodes_and_skips_absent_keys() {
    let mut nodes = nodes_of((0..9).map(|key| (key, vec![key + 1])));
    compute_tc(&mut nodes, true).expect("no cycle");
    for (key, edges) in [(3, vec![4]), (1, vec![2, 3]), (7, vec![8])] {
        nodes.insert(key, Numbered(key, edges.into_iter().collect()));
    }
    assert!(enforce_tc_and_dag(&nodes).is_err());
    let work = repair_tc_counted(&HashSet::from([1, 3, 7]), &mut nodes, true).expect("no cycle");
    assert!((3..=6).contains(&work.closings));
    assert_eq!(nodes.values().map(|node| node.1.len()).sum::<usize>(), 45);
    assert!(enforce_tc_and_dag(&nodes).is_ok());
    let work = repair_tc_counted(&HashSet::from([20, 21]), &mut nodes, true).expect("no cycle");
    assert_eq!((work.reads, work.closings), (0, 0));
}

#[test]
fn error_messages_and_equality() {
    let missing = || {
        TcError::MissingTcEdge(MissingTcEdge {
            child: 1,
            parent: 2,
            grandparent: 3,
        })
    };
    assert_eq!(
        missing().to_string(),
        "expected all transitive edges to exist, but `1` -> `2` and `2` -> `3` exists, while `1` -> `3` does not"
    );
    let self_loop = || enforce_tc_and_dag(&nodes_of([(7, vec![7])])).expect_err("a loop");
    assert_eq!(self_loop().to_string(), "input graph has a cycle containing vertex `7`");
    assert!(enforce_tc_and_dag(&nodes_of([(1, vec![2]), (2, vec![3])])).expect_err("it is not closed") == missing());
    assert!(self_loop() != missing() && self_loop() == TcError::HasCycle(HasCycle::new(7)));
}
