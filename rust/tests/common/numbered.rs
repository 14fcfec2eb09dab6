//! A node with numbers as keys. It ignores all notifications except new edges.
use cedar_store::transitive_closure::TCNode;
use std::collections::BTreeSet;

/// A node with its number, and the numbers to which it has an edge.
pub struct Numbered(pub u32, pub BTreeSet<u32>);

impl TCNode<u32> for Numbered {
    fn get_key(&self) -> u32 {
        self.0
    }

    fn add_edge_to(&mut self, key: u32) {
        self.1.insert(key);
    }

    fn out_edges(&self) -> Box<dyn Iterator<Item = &u32> + '_> {
        Box::new(self.1.iter())
    }

    fn has_edge_to(&self, key: &u32) -> bool {
        self.1.contains(key)
    }

    fn reset_edges(&mut self) {}
}
