//! Closures of random graphs, compared with plain searches: closing, repairing, checking, and the counts of the counted
//! calls. The nodes are of two kinds, and some keys have no node.
mod common;
#[path = "common/numbered.rs"]
mod numbered;

use cedar_store::transitive_closure::{
    TCNode, TcError, close_dag, compute_tc, compute_tc_counted, enforce_tc_and_dag, repair_dag, repair_tc,
    repair_tc_counted,
};
use common::Random;
use numbered::Numbered;
use std::cell::Cell;
use std::collections::{BTreeMap, BTreeSet, HashMap, HashSet};

type Edges = BTreeMap<u8, BTreeSet<u8>>;

/// A node that counts how often its edges are listed. One kind implements `direct_edges`, and the other uses the
/// default of the trait.
#[derive(Clone, Debug)]
struct Node {
    key: u8,
    name: String,
    direct: BTreeSet<u8>,
    indirect: BTreeSet<u8>,
    list_count: Cell<usize>,
}

impl TCNode<u8> for Node {
    fn get_key(&self) -> u8 {
        self.key
    }

    fn add_edge_to(&mut self, key: u8) {
        if !self.direct.contains(&key) {
            self.indirect.insert(key);
        }
    }

    fn out_edges(&self) -> Box<dyn Iterator<Item = &u8> + '_> {
        self.list_count.set(self.list_count.get() + 1);
        Box::new(self.direct.iter().chain(&self.indirect))
    }

    fn has_edge_to(&self, key: &u8) -> bool {
        self.direct.contains(key) || self.indirect.contains(key)
    }

    fn direct_edges(&self) -> Box<dyn Iterator<Item = &u8> + '_> {
        Box::new(self.direct.iter())
    }

    fn reset_edges(&mut self) {
        self.indirect.clear();
    }
}

type Nodes = HashMap<u8, Node>;

fn nodes_of(graph: &Edges) -> Nodes {
    let node = |(key, edges): (&u8, &BTreeSet<u8>)| {
        let node = Node {
            key: *key,
            name: format!("node {key}"),
            direct: edges.clone(),
            indirect: BTreeSet::new(),
            list_count: Cell::new(0),
        };
        (*key, node)
    };
    graph.iter().map(node).collect()
}

fn edges_of(nodes: &Nodes) -> Edges {
    nodes
        .iter()
        .map(|(key, node)| (*key, &node.direct | &node.indirect))
        .collect()
}

/// Returns the keys that are reachable from a key over one or more edges.
fn reachable(graph: &Edges, from: u8) -> BTreeSet<u8> {
    let mut all = BTreeSet::new();
    let mut pending: Vec<u8> = graph.get(&from).into_iter().flatten().copied().collect();
    while let Some(key) = pending.pop() {
        if all.insert(key) {
            pending.extend(graph.get(&key).into_iter().flatten());
        }
    }
    all
}

fn closure(graph: &Edges) -> Edges {
    graph.keys().map(|key| (*key, reachable(graph, *key))).collect()
}

fn keys_on_cycles(graph: &Edges) -> BTreeSet<u8> {
    graph
        .keys()
        .copied()
        .filter(|key| reachable(graph, *key).contains(key))
        .collect()
}

fn assert_other_data_unchanged(nodes: &Nodes, graph: &Edges) {
    assert_eq!(
        nodes.keys().copied().collect::<BTreeSet<_>>(),
        graph.keys().copied().collect()
    );
    for (key, node) in nodes {
        assert_eq!(
            (node.key, &node.name, &node.direct),
            (*key, &format!("node {key}"), &graph[key])
        );
    }
}

fn assert_cycle_names_one_of(error: &TcError<u8>, keys: &BTreeSet<u8>) {
    match error {
        TcError::HasCycle(cycle) => assert!(keys.contains(cycle.vertex_with_loop()), "{error}"),
        TcError::MissingTcEdge(_) => panic!("{error}"),
    }
}

/// Asserts that closing a graph gives exactly the reachable keys as edges, with and without a check for cycles. Each
/// node is listed at most once.
fn assert_closes(graph: &Edges) {
    let (expected, cycles) = (closure(graph), keys_on_cycles(graph));
    let mut nodes = nodes_of(graph);
    assert!(compute_tc(&mut nodes, false).is_ok());
    assert_eq!(edges_of(&nodes), expected);
    assert_other_data_unchanged(&nodes, graph);
    let mut nodes = nodes_of(graph);
    match compute_tc(&mut nodes, true) {
        Ok(()) => assert!(cycles.is_empty()),
        Err(error) => assert_cycle_names_one_of(&error, &cycles),
    }
    assert_eq!(edges_of(&nodes), expected);
    // a call that reports a cycle before it writes must not have changed the graph
    let mut nodes = nodes_of(graph);
    match close_dag(&mut nodes) {
        Ok(()) => assert!(cycles.is_empty() && edges_of(&nodes) == expected),
        Err(error) => {
            assert_cycle_names_one_of(&error, &cycles);
            assert_eq!(edges_of(&nodes), *graph);
        }
    }
    assert_other_data_unchanged(&nodes, graph);
    let mut nodes = nodes_of(graph);
    let work = compute_tc_counted(&mut nodes, false).expect("closing without a check for cycles succeeds");
    let with_edges = graph.values().filter(|edges| !edges.is_empty()).count();
    assert_eq!(work.reads, nodes.values().map(|node| node.list_count.get()).sum());
    assert!(nodes.values().all(|node| node.list_count.get() <= 1));
    assert!(
        with_edges <= work.reads
            && work.reads <= graph.len()
            && with_edges <= work.closings
            && work.closings <= 2 * graph.len()
    );
    // closing a closed graph changes nothing
    let mut nodes = nodes_of(&expected);
    assert!(compute_tc(&mut nodes, false).is_ok());
    assert_eq!(edges_of(&nodes), expected);
}

/// Asserts that checking a graph reports a missing edge if there is one, and otherwise a loop if there is one.
fn assert_checks(graph: &Edges) {
    let is_missing = |child: &u8, parent: &u8, grandparent: &u8| {
        graph[child].contains(parent)
            && graph.get(parent).is_some_and(|edges| edges.contains(grandparent))
            && !graph[child].contains(grandparent)
    };
    let is_closed = graph.iter().all(|(child, edges)| {
        edges.iter().all(|parent| {
            graph.get(parent).is_none_or(|targets| {
                targets
                    .iter()
                    .all(|grandparent| !is_missing(child, parent, grandparent))
            })
        })
    });
    match enforce_tc_and_dag(&nodes_of(graph)) {
        Ok(()) => assert!(is_closed && graph.iter().all(|(key, edges)| !edges.contains(key))),
        Err(TcError::MissingTcEdge(error)) => assert!(is_missing(&error.child, &error.parent, &error.grandparent)),
        Err(TcError::HasCycle(error)) => {
            assert!(is_closed && graph[error.vertex_with_loop()].contains(error.vertex_with_loop()));
        }
    }
}

/// Asserts that repairing some keys closes the graph if every other key has an edge to all keys that it reaches.
fn assert_repairs(graph: &Edges, repaired: &BTreeSet<u8>) {
    let closed = closure(graph);
    let mut input = closed.clone();
    for key in repaired {
        if let Some(edges) = input.get_mut(key) {
            edges.clone_from(&graph[key]);
        }
    }
    let repaired_set: HashSet<u8> = repaired.iter().copied().collect();
    let cycles: BTreeSet<u8> = keys_on_cycles(graph).intersection(repaired).copied().collect();
    for enforce_dag in [false, true] {
        let mut nodes = nodes_of(&input);
        match repair_tc(&repaired_set, &mut nodes, enforce_dag) {
            Ok(()) => {
                assert!(!enforce_dag || cycles.is_empty());
                if cycles.is_empty() {
                    assert_eq!(edges_of(&nodes), closed);
                }
            }
            Err(error) => {
                assert!(enforce_dag);
                assert_cycle_names_one_of(&error, &cycles);
            }
        }
        assert_only_adds(&nodes, &input, repaired);
    }
    let mut nodes = nodes_of(&input);
    match repair_dag(&repaired_set, &mut nodes) {
        Ok(()) => assert!(cycles.is_empty() && edges_of(&nodes) == closed),
        Err(error) => {
            assert_cycle_names_one_of(&error, &cycles);
            assert_eq!(edges_of(&nodes), input);
        }
    }
    let mut nodes = nodes_of(&input);
    let work = repair_tc_counted(&repaired_set, &mut nodes, false).expect("the call succeeds");
    assert_eq!(work.reads, nodes.values().map(|node| node.list_count.get()).sum());
    assert!(work.closings <= 2 * repaired.len());
    if keys_on_cycles(graph).is_empty() && repaired.iter().all(|key| graph.contains_key(key)) {
        assert!(repaired.len() <= work.closings);
    }
}

/// Asserts that keys, other data and the nodes that are not repaired did not change, and that only edges to reachable
/// keys were added.
fn assert_only_adds(nodes: &Nodes, input: &Edges, repaired: &BTreeSet<u8>) {
    assert_other_data_unchanged(nodes, input);
    for (key, edges) in edges_of(nodes) {
        if repaired.contains(&key) {
            assert!(edges.is_superset(&input[&key]) && edges.is_subset(&(&reachable(input, key) | &input[&key])));
        } else {
            assert_eq!(edges, input[&key]);
        }
    }
}

/// Asserts that repairing adds only edges to reachable keys, for any graph.
fn assert_repair_only_adds(graph: &Edges, repaired: &BTreeSet<u8>) {
    let repaired_set: HashSet<u8> = repaired.iter().copied().collect();
    for enforce_dag in [false, true] {
        let mut nodes = nodes_of(graph);
        if let Err(error) = repair_tc(&repaired_set, &mut nodes, enforce_dag) {
            assert!(enforce_dag);
            assert_cycle_names_one_of(&error, &keys_on_cycles(graph).intersection(repaired).copied().collect());
        }
        assert_only_adds(&nodes, graph, repaired);
    }
    let mut nodes = nodes_of(graph);
    if let Err(error) = repair_dag(&repaired_set, &mut nodes) {
        assert_cycle_names_one_of(&error, &keys_on_cycles(graph).intersection(repaired).copied().collect());
        assert_eq!(edges_of(&nodes), *graph);
    }
    assert_only_adds(&nodes, graph, repaired);
}

fn random_graph(random: &mut Random) -> Edges {
    let keys = 1 + random.below(9);
    let edges = 1 + random.below(4);
    let is_acyclic = random.one_in(2);
    let mut graph = Edges::new();
    for key in 0..keys {
        if !random.one_in(6) {
            let target = |random: &mut Random| {
                if is_acyclic {
                    key + 1 + random.below(3)
                } else {
                    random.below(keys + 1)
                }
            };
            let count = random.below(edges + 1);
            let targets = (0..count)
                .map(|_| u8::try_from(target(random)).expect("a small key"))
                .collect();
            graph.insert(u8::try_from(key).expect("a small key"), targets);
        }
    }
    graph
}

fn random_keys(random: &mut Random) -> BTreeSet<u8> {
    (0..10).filter(|_| random.one_in(3)).collect()
}

#[test]
fn random_graphs() {
    let mut cyclic_count = 0;
    for seed in 0..common::rounds(30_000) {
        let mut random = Random::new(seed);
        let graph = random_graph(&mut random);
        let repaired = random_keys(&mut random);
        cyclic_count += usize::from(!keys_on_cycles(&graph).is_empty());
        assert_closes(&graph);
        assert_checks(&graph);
        assert_checks(&closure(&graph));
        assert_repairs(&graph, &repaired);
        assert_repair_only_adds(&graph, &repaired);
    }
    let all = common::rounds(30_000) as usize;
    assert!(
        (all / 6..all * 5 / 6).contains(&cyclic_count),
        "{cyclic_count} have cycles"
    );
}

/// All graphs of three keys, each with or without its node, and every set of keys to repair.
#[test]
fn all_graphs_of_three_keys() {
    for present in 1..8_u8 {
        for bits in 0..512_u16 {
            let graph: Edges = (0..3)
                .filter(|key| present >> key & 1 == 1)
                .map(|from| (from, (0..3).filter(|to| bits >> (3 * from + to) & 1 == 1).collect()))
                .collect();
            assert_closes(&graph);
            assert_checks(&graph);
            for repaired in 0..8_u8 {
                let repaired = (0..3).filter(|key| repaired >> key & 1 == 1).collect();
                assert_repairs(&graph, &repaired);
                assert_repair_only_adds(&graph, &repaired);
            }
        }
    }
}

/// A star and a ring. They are so large that recursion would overflow the stack.
#[test]
fn large_graphs() {
    let node = |key: u32, edges: Vec<u32>| (key, Numbered(key, edges.into_iter().collect()));
    let mut star: HashMap<u32, Numbered> = (1..=100_000)
        .map(|key| node(key, vec![0]))
        .chain([node(0, vec![200_000])])
        .collect();
    compute_tc(&mut star, true).expect("no cycle");
    assert!(star.values().all(|it| it.1.len() == if it.0 == 0 { 1 } else { 2 }));
    let mut ring: HashMap<u32, Numbered> = (0..1_500).map(|key| node(key, vec![(key + 1) % 1_500])).collect();
    compute_tc(&mut ring, false).expect("the call succeeds");
    assert!(ring.values().all(|it| it.1.len() == 1_500));
    let mut chain: HashMap<u32, Numbered> = (0..100_000).map(|key| node(key, vec![key + 1])).collect();
    let last = HashSet::from([99_990]);
    repair_tc(&last, &mut chain, true).expect("no cycle");
    assert_eq!(chain[&99_990].1.len(), 2);
}
