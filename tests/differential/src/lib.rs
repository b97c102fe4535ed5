//! The plain implementation of documents 01 and 02, and the random routes, inputs and damage that it is compared over.

pub mod basic;
pub mod broadcast;
pub mod fields;
pub mod gen;
pub mod header;
pub mod hop_records;
pub mod pair;
pub mod plain;
pub mod repair;
pub mod tree_change;
