//! A second, independent implementation of the rules of document 01, the watched recorder.
//!
//! It is written for reading and for comparing, not for speed: numbers are worked out in 128 bits,
//! memories are vectors of blocks and cells, and byte images are made only at the end of a run.

pub mod answer;
pub mod builder;
pub mod checker;
pub mod counted;
pub mod generator;
pub mod grammar;
pub mod high_names;
pub mod host;
pub mod limits;
pub mod listing;
pub mod listings;
pub mod machine;
pub mod memory;
pub mod naming;
pub mod numbers;
pub mod observation;
pub mod past;
pub mod plain;
pub mod predicates;
pub mod record;
pub mod room;
pub mod statements;
pub mod translator;
pub mod value;
pub mod watched;

pub use answer::Answer;
