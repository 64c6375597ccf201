//! Stack room for deep tables: callers may stand on a thread with little of it.

use crate::grammar;
use crate::record::Record;
use std::thread::Builder;

/// Up to this depth any thread's stack will do.
const SHALLOW: usize = 256;
const ROOM: usize = 128 << 20;

/// The number of levels of an accepted table.
pub fn depth(records: &[Record]) -> usize {
    let mut depths = vec![1_usize; records.len() + 1];
    for number in (1..=records.len()).rev() {
        for child in grammar::child_numbers(&records[number - 1]) {
            depths[usize::from(child)] = depths[number] + 1;
        }
    }
    depths.into_iter().max().unwrap_or(0)
}

/// Does the work here where the table is shallow, else on a thread with room for it.
pub fn with_room<T: Send>(records: &[Record], work: impl FnOnce() -> T + Send) -> T {
    if depth(records) <= SHALLOW {
        return work();
    }
    std::thread::scope(|scope| {
        let thread = Builder::new().stack_size(ROOM).spawn_scoped(scope, work);
        thread
            .expect("a thread can be had")
            .join()
            .expect("the work ends")
    })
}
