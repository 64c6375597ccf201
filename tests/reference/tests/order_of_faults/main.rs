//! Which fault a source program ends with where it has several, and which statement it names.
//! Every program is run plain and, translated, watched; the two must agree.

mod conditions;
mod expressions;
mod new_blocks;
mod places;
mod programs;
