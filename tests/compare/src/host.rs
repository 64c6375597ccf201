//! A safe wrapper over the C host's function, as `host/used_pointer.h` declares it.

use crate::library::Returned;
use reference::limits::EXECUTION_BYTES;
use reference::value::Pointer;
use reference::Answer;

#[repr(C)]
#[derive(Default)]
struct UsedPointer {
    name: u32,
    offset: i64,
}

extern "C" {
    #[link_name = "used_pointer"]
    fn host_used_pointer(
        table: *const u8,
        answer: Returned,
        memory: *const u8,
        used: *mut UsedPointer,
    ) -> bool;
}

/// The answer is a plain run's of this accepted table, and the memory what that run left: so the function needs no
/// length of the table.
pub fn used_pointer(table: &[u8], answer: Answer, memory: &[u8]) -> Option<Pointer> {
    assert_eq!(memory.len(), EXECUTION_BYTES);
    let mut used = UsedPointer::default();
    let (table, memory) = (table.as_ptr(), memory.as_ptr());
    let found = unsafe { host_used_pointer(table, answer.into(), memory, &mut used) };
    let UsedPointer { name, offset } = used;
    found.then_some(Pointer { name, offset })
}
