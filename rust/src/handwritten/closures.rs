//! The closure functions with the default hasher of the standard library.
use crate::cedar_graph::{self, Result, TCNode};
use std::collections::{HashMap, HashSet};
use std::fmt::{Debug, Display};
use std::hash::Hash;

/// Adds the edges of the transitive closure to the nodes: from each node to every key that it reaches.
///
/// [`compute_tc_with_hasher`](crate::transitive_closure::compute_tc_with_hasher) takes a map with any hasher, and
/// explains the costs.
///
/// # Errors
///
/// `HasCycle`, if `enforce_dag` is set and a node reaches itself. All edges of the closure are added before.
///
/// # Examples
///
/// ```
/// use cedar_store::ast::{Entity, EntityUID};
/// use cedar_store::transitive_closure::compute_tc;
/// use std::collections::HashMap;
///
/// let uid = |eid| EntityUID::with_eid_and_type("Group", eid);
/// let (mut staff, mut all) = (Entity::with_uid(uid("staff")?), Entity::with_uid(uid("all")?));
/// staff.add_parent(uid("all")?);
/// all.add_parent(uid("everyone")?);
/// let mut nodes = HashMap::from([staff, all].map(|entity| (entity.uid().clone(), entity)));
/// compute_tc::<EntityUID, Entity>(&mut nodes, true)?;
/// assert!(nodes[&uid("staff")?].is_descendant_of(&uid("everyone")?));
/// # Ok::<(), Box<dyn std::error::Error>>(())
/// ```
pub fn compute_tc<K, V>(nodes: &mut HashMap<K, V>, enforce_dag: bool) -> Result<(), K>
where
    K: Clone + Eq + Hash + Debug + Display,
    V: TCNode<K>,
{
    cedar_graph::compute_tc(nodes, enforce_dag)
}

/// Adds the missing edges of the transitive closure to the nodes in `nodes_to_fix`. All other nodes must be closed.
///
/// [`repair_tc_with_hasher`](crate::transitive_closure::repair_tc_with_hasher) takes a map and a set with any hashers,
/// and explains the costs.
///
/// # Errors
///
/// `HasCycle`, if `enforce_dag` is set and a node of `nodes_to_fix` reaches itself. All edges of the closure are added
/// before.
///
/// # Examples
///
/// ```
/// use cedar_store::ast::{Entity, EntityUID};
/// use cedar_store::transitive_closure::{compute_tc, repair_tc};
/// use std::collections::{HashMap, HashSet};
///
/// let uid = |eid| EntityUID::with_eid_and_type("Group", eid);
/// let mut staff = Entity::with_uid(uid("staff")?);
/// staff.add_parent(uid("all")?);
/// let mut nodes = HashMap::from([(uid("staff")?, staff)]);
/// compute_tc(&mut nodes, true)?;
///
/// // a new node has one edge, to a node that is closed
/// let mut sales = Entity::with_uid(uid("sales")?);
/// sales.add_parent(uid("staff")?);
/// nodes.insert(uid("sales")?, sales);
/// repair_tc(&HashSet::from([uid("sales")?]), &mut nodes, true)?;
/// assert!(nodes[&uid("sales")?].is_descendant_of(&uid("all")?));
/// # Ok::<(), Box<dyn std::error::Error>>(())
/// ```
pub fn repair_tc<K, V>(nodes_to_fix: &HashSet<K>, nodes: &mut HashMap<K, V>, enforce_dag: bool) -> Result<(), K>
where
    K: Clone + Eq + Hash + Debug + Display,
    V: TCNode<K>,
{
    cedar_graph::repair_tc(nodes_to_fix, nodes, enforce_dag)
}

/// Checks that the nodes have all edges of their transitive closure, and that no node reaches itself.
///
/// [`enforce_tc_and_dag_with_hasher`](crate::transitive_closure::enforce_tc_and_dag_with_hasher) takes a map with any
/// hasher.
///
/// # Errors
///
/// - `MissingTcEdge`: an edge of the closure is missing.
/// - `HasCycle`: no edge is missing, and a node has an edge to itself.
pub fn enforce_tc_and_dag<K, V>(nodes: &HashMap<K, V>) -> Result<(), K>
where
    K: Clone + Eq + Hash + Debug + Display,
    V: TCNode<K>,
{
    cedar_graph::enforce_tc_and_dag(nodes)
}
