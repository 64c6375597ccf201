//! The C interpreter's entry points, on buffers of their own.

use reference::Answer;

#[repr(C)]
struct Returned {
    number: u32,
    record: u32,
    fuel: u32,
    free_cells: u32,
}

impl From<Returned> for Answer {
    fn from(returned: Returned) -> Answer {
        Answer::ending(returned.number, returned.record, returned.fuel, returned.free_cells)
    }
}

extern "C" {
    fn interpreter_check_source(table: *const u8, table_len: usize) -> Returned;
    fn interpreter_check_target(table: *const u8, table_len: usize) -> Returned;
    fn interpreter_translate(table: *const u8, table_len: usize, out: *mut u8, out_len: usize) -> Returned;
    fn interpreter_run_plain(
        table: *const u8,
        table_len: usize,
        inputs: *const u8,
        inputs_len: usize,
        fuel: u32,
        memory: *mut u8,
        memory_len: usize,
    ) -> Returned;
    fn interpreter_run_watched(
        table: *const u8,
        table_len: usize,
        inputs: *const u8,
        inputs_len: usize,
        fuel: u32,
        memory: *mut u8,
        memory_len: usize,
        observation: *mut u8,
        observation_len: usize,
    ) -> Returned;
}

// The functions read and write only within the lengths that they are given.

pub fn check_source(table: &[u8]) -> Answer {
    unsafe { interpreter_check_source(table.as_ptr(), table.len()) }.into()
}

pub fn check_target(table: &[u8]) -> Answer {
    unsafe { interpreter_check_target(table.as_ptr(), table.len()) }.into()
}

pub fn translate(table: &[u8], out: &mut [u8]) -> Answer {
    unsafe { interpreter_translate(table.as_ptr(), table.len(), out.as_mut_ptr(), out.len()) }.into()
}

pub fn run_plain(table: &[u8], inputs: &[u8], fuel: u32, memory: &mut [u8]) -> Answer {
    let (m, length) = (memory.as_mut_ptr(), memory.len());
    unsafe { interpreter_run_plain(table.as_ptr(), table.len(), inputs.as_ptr(), inputs.len(), fuel, m, length) }.into()
}

pub fn run_watched(table: &[u8], inputs: &[u8], fuel: u32, memory: &mut [u8], observation: &mut [u8]) -> Answer {
    let (m, m_length) = (memory.as_mut_ptr(), memory.len());
    let (o, o_length) = (observation.as_mut_ptr(), observation.len());
    let (t, i) = (table.as_ptr(), inputs.as_ptr());
    unsafe { interpreter_run_watched(t, table.len(), i, inputs.len(), fuel, m, m_length, o, o_length) }.into()
}
