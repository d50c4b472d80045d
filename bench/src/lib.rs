//! Document 01's calls twice: the proved library, linked by its C names, and plain Rust, under one trait.
pub mod plain;
pub mod proved;
pub mod side;
