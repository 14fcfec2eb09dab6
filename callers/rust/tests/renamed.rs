//! Tests and examples of the package `cedar-store`, compiled unchanged with this crate under that name. So a program
//! can switch between the packages by changing the name. The files have the layout of that package. The examples are
//! built, but not run.
#![allow(
    clippy::duplicate_mod,
    clippy::manual_is_multiple_of,
    clippy::type_complexity
)]
extern crate cedar_store_proved as cedar_store;

#[allow(dead_code)]
#[rustfmt::skip]
#[path = "../../../rust/examples/administration.rs"]
mod administration;
#[allow(dead_code)]
#[rustfmt::skip]
#[path = "../../../rust/examples/authorizer.rs"]
mod authorizer;
#[rustfmt::skip]
#[path = "../../../rust/tests/random_modes.rs"]
mod random_modes;
#[rustfmt::skip]
#[path = "../../../rust/tests/random_sets.rs"]
mod random_sets;
#[rustfmt::skip]
#[path = "../../../rust/tests/random_stores.rs"]
mod random_stores;
#[rustfmt::skip]
#[path = "../../../rust/tests/edge_cases.rs"]
mod edge_cases;
#[rustfmt::skip]
#[path = "../../../rust/tests/store_edge_cases.rs"]
mod store_edge_cases;
#[rustfmt::skip]
#[path = "../../../rust/tests/entity.rs"]
mod entity;
#[rustfmt::skip]
#[path = "../../../rust/tests/policy.rs"]
mod policy;
#[rustfmt::skip]
#[path = "../../../rust/tests/policy_set.rs"]
mod policy_set;
#[rustfmt::skip]
#[path = "../../../rust/tests/queries.rs"]
mod queries;
#[rustfmt::skip]
#[path = "../../../rust/tests/naming.rs"]
mod naming;
