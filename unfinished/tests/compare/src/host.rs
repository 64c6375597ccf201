//! Safe wrappers over functions of the C host, as `host/used_pointer.h` and `host/evaluation.h` declare them.

use crate::library::Returned;
use reference::limits::EXECUTION_BYTES;
use reference::value::Pointer;
use reference::Answer;

#[repr(C)]
#[derive(Default)]
struct UsedPointer {
    name: u32,
    offset: i64,
}

#[repr(C)]
struct Moment {
    table: *const u8,
    memory: *const u8,
    has_made_block: bool,
    variables: [u32; 64],
}

#[repr(C)]
struct Value {
    kind: u32,
    name: u32,
    number: i64,
}

#[repr(C)]
struct Outcome {
    ending: u32,
    record: u32,
    operands: [Value; 2],
    value: Value,
}

extern "C" {
    #[link_name = "used_pointer"]
    fn host_used_pointer(
        table: *const u8,
        answer: Returned,
        memory: *const u8,
        used: *mut UsedPointer,
    ) -> bool;
    fn moment_left(table: *const u8, statement: u32, number: u32, memory: *const u8) -> Moment;
    fn run_again(at: *const Moment, statement: u32) -> Outcome;
}

/// The answer is a plain run's of this accepted table, and the memory what that run left: so the function needs no
/// length of the table.
pub fn used_pointer(table: &[u8], answer: Answer, memory: &[u8]) -> Option<Pointer> {
    assert_eq!(memory.len(), EXECUTION_BYTES);
    let mut used = UsedPointer::default();
    let (table, memory) = (table.as_ptr(), memory.as_ptr());
    let found = unsafe { host_used_pointer(table, answer.into(), memory, &mut used) };
    let UsedPointer { name, offset } = used;
    found.then_some(Pointer { name, offset })
}

/// The number that the statement of an answer comes to, worked out again. Table, answer and memory are as above.
pub fn ending_again(table: &[u8], answer: Answer, memory: &[u8]) -> u32 {
    assert_eq!(memory.len(), EXECUTION_BYTES);
    let (table, memory) = (table.as_ptr(), memory.as_ptr());
    unsafe {
        let at = moment_left(table, answer.record, answer.number, memory);
        run_again(&at, answer.record).ending
    }
}
