//! The C host run as a program, and what its JSON is held to.

pub mod json;
pub mod lines;
pub mod program;
pub mod schema;
pub mod tables;
