//! Code that is written by hand. It is not generated from the sources of the layer.
pub(crate) mod closures;
mod conversions;
mod debug;
mod diff;
mod dot;
mod exprs;
#[cfg(feature = "cli")]
pub(crate) mod line_feed;
pub(crate) mod linked_map;
#[cfg(test)]
mod linked_map_tests;
pub(crate) mod name_path;
mod naming;
pub(crate) mod node_map;
pub(crate) mod ordered_map;
#[cfg(test)]
mod ordered_map_tests;
pub(crate) mod parse_errors;
mod policy_diff;
mod policy_sets;
mod queries;
pub(crate) mod renaming;
pub(crate) mod scopes;
pub(crate) mod shared_map;
#[cfg(test)]
mod shared_map_tests;
mod shared_vec;
mod slots;
mod texts;
mod try_edits;
#[cfg(test)]
mod uid_sets_tests;
mod values;
