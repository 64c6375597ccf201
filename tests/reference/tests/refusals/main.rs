//! Every refusal of a table at its exact boundary.

mod forms;
mod sources;
mod targets;
