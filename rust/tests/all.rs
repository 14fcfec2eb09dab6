//! All integration tests, as modules of one program: it is linked once, and its tests share the processors.
//!
//! A random test makes a twentieth of its rounds. `cargo test -- --ignored` runs all tests with all rounds.
#![allow(
    clippy::duplicate_mod,
    reason = "each file names its helpers, so that it can also be a program of its own"
)]

#[path = "closures.rs"]
mod closures;
#[path = "constraints.rs"]
mod constraints;
#[cfg(feature = "cli")]
#[path = "corpus.rs"]
mod corpus;
#[path = "diff.rs"]
mod diff;
#[path = "dot.rs"]
mod dot;
#[path = "drop_in.rs"]
mod drop_in;
#[path = "dry_runs.rs"]
mod dry_runs;
#[path = "edge_cases.rs"]
mod edge_cases;
#[path = "entity.rs"]
mod entity;
#[path = "errors.rs"]
mod errors;
#[path = "examples.rs"]
mod examples;
#[path = "hashers.rs"]
mod hashers;
#[path = "large.rs"]
mod large;
#[path = "locations.rs"]
mod locations;
#[path = "naming.rs"]
mod naming;
#[path = "policy.rs"]
mod policy;
#[path = "policy_diff.rs"]
mod policy_diff;
#[path = "policy_set.rs"]
mod policy_set;
#[path = "queries.rs"]
mod queries;
#[path = "random_closures.rs"]
mod random_closures;
#[path = "random_modes.rs"]
mod random_modes;
#[path = "random_sets.rs"]
mod random_sets;
#[path = "random_stores.rs"]
mod random_stores;
#[path = "scopes.rs"]
mod scopes;
#[path = "sets.rs"]
mod sets;
#[path = "snapshots.rs"]
mod snapshots;
#[path = "store_edge_cases.rs"]
mod store_edge_cases;
#[path = "stores.rs"]
mod stores;
#[path = "terms.rs"]
mod terms;
#[path = "texts.rs"]
mod texts;
#[path = "threads.rs"]
mod threads;
#[path = "traits.rs"]
mod traits;
#[path = "transitive_closure.rs"]
mod transitive_closure;
#[path = "try_edits.rs"]
mod try_edits;

/// Runs this program again, with all rounds of the random tests.
#[test]
#[ignore = "it takes minutes"]
fn random_tests_make_all_rounds() {
    let program = std::env::current_exe().expect("a test has a path");
    let status = std::process::Command::new(program)
        .env("CEDAR_LONG_TESTS", "1")
        .status()
        .expect("the program starts");
    assert!(status.success(), "a test failed with all rounds");
}
