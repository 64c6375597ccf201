//! Safe wrappers over the library's C functions, as `include/recorder.h` declares them.

use reference::Answer;

#[repr(C)]
#[derive(Clone, Copy)]
pub(crate) struct Returned {
    number: u32,
    record: u32,
    fuel: u32,
    free_cells: u32,
}

extern "C" {
    fn recorder_check_source(table: *const u8, table_len: usize) -> Returned;
    fn recorder_check_target(table: *const u8, table_len: usize) -> Returned;
    fn recorder_translate(
        table: *const u8,
        table_len: usize,
        out: *mut u8,
        out_len: usize,
    ) -> Returned;
    fn recorder_run_plain(
        table: *const u8,
        table_len: usize,
        inputs: *const u8,
        inputs_len: usize,
        fuel: u32,
        memory: *mut u8,
        memory_len: usize,
    ) -> Returned;
    fn recorder_run_watched(
        table: *const u8,
        table_len: usize,
        inputs: *const u8,
        inputs_len: usize,
        fuel: u32,
        memory: *mut u8,
        memory_len: usize,
        observation: *mut u8,
        observation_len: usize,
    ) -> Returned;
}

impl From<Answer> for Returned {
    fn from(answer: Answer) -> Returned {
        Returned {
            number: answer.number,
            record: answer.record,
            fuel: answer.fuel,
            free_cells: answer.free_cells,
        }
    }
}

fn answer(returned: Returned) -> Answer {
    Answer::ending(
        returned.number,
        returned.record,
        returned.fuel,
        returned.free_cells,
    )
}

pub fn check_source(table: &[u8]) -> Answer {
    // The function reads the slice and keeps no reference to it.
    answer(unsafe { recorder_check_source(table.as_ptr(), table.len()) })
}

pub fn check_target(table: &[u8]) -> Answer {
    answer(unsafe { recorder_check_target(table.as_ptr(), table.len()) })
}

pub fn translate(table: &[u8], out: &mut [u8]) -> Answer {
    // The two slices do not overlap, as a shared and an exclusive reference.
    answer(unsafe { recorder_translate(table.as_ptr(), table.len(), out.as_mut_ptr(), out.len()) })
}

pub fn run_plain(table: &[u8], inputs: &[u8], fuel: u32, memory: &mut [u8]) -> Answer {
    answer(unsafe {
        recorder_run_plain(
            table.as_ptr(),
            table.len(),
            inputs.as_ptr(),
            inputs.len(),
            fuel,
            memory.as_mut_ptr(),
            memory.len(),
        )
    })
}

pub fn run_watched(
    table: &[u8],
    inputs: &[u8],
    fuel: u32,
    memory: &mut [u8],
    observation: &mut [u8],
) -> Answer {
    answer(unsafe {
        recorder_run_watched(
            table.as_ptr(),
            table.len(),
            inputs.as_ptr(),
            inputs.len(),
            fuel,
            memory.as_mut_ptr(),
            memory.len(),
            observation.as_mut_ptr(),
            observation.len(),
        )
    })
}
