//! Targets no translation gives: temporaries, observation calls and their faults in order.

mod comparisons;
mod kinds;
mod many_names;
mod observation_calls;
mod target;
mod temporaries;
