//! The closure of a graph with custom nodes: services and their dependencies.
use cedar_store::transitive_closure::{TCNode, TcError, compute_tc, enforce_tc_and_dag};
use std::collections::{BTreeSet, HashMap};

/// A service with its direct dependencies and its indirect dependencies.
struct Service {
    name: String,
    direct: BTreeSet<String>,
    indirect: BTreeSet<String>,
}

impl TCNode<String> for Service {
    fn get_key(&self) -> String {
        self.name.clone()
    }

    fn add_edge_to(&mut self, name: String) {
        if !self.direct.contains(&name) {
            self.indirect.insert(name);
        }
    }

    fn out_edges(&self) -> Box<dyn Iterator<Item = &String> + '_> {
        Box::new(self.direct.iter().chain(&self.indirect))
    }

    fn has_edge_to(&self, name: &String) -> bool {
        self.direct.contains(name) || self.indirect.contains(name)
    }

    fn direct_edges(&self) -> Box<dyn Iterator<Item = &String> + '_> {
        Box::new(self.direct.iter())
    }

    fn reset_edges(&mut self) {
        self.indirect.clear();
    }
}

fn services(dependencies: &[(&str, &[&str])]) -> HashMap<String, Service> {
    let service = |(name, direct): &(&str, &[&str])| Service {
        name: (*name).to_string(),
        direct: direct.iter().map(ToString::to_string).collect(),
        indirect: BTreeSet::new(),
    };
    dependencies
        .iter()
        .map(|entry| (entry.0.to_string(), service(entry)))
        .collect()
}

fn main() {
    let mut services_by_name = services(&[
        ("shop", &["orders"]),
        ("orders", &["database", "mail"]),
        ("mail", &["queue"]),
    ]);
    println!("closed before: {}", enforce_tc_and_dag(&services_by_name).is_ok());
    compute_tc(&mut services_by_name, true).expect("there is no cycle");
    println!("closed now: {}", enforce_tc_and_dag(&services_by_name).is_ok());
    println!(
        "shop needs {:?} directly and {:?} indirectly",
        services_by_name["shop"].direct, services_by_name["shop"].indirect
    );

    let mut cycle_of_two = services(&[("one", &["other"]), ("other", &["one"])]);
    match compute_tc(&mut cycle_of_two, true) {
        Err(TcError::HasCycle(cycle)) => {
            println!(
                "a cycle through one or other: {}",
                ["one", "other"].contains(&cycle.vertex_with_loop().as_str())
            );
        }
        Err(TcError::MissingTcEdge(_)) | Ok(()) => unreachable!("there is a cycle"),
    }
}
