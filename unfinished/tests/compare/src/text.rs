//! Safe wrappers over the C host's reader and printer of tables as text, as `host/text.h` and `host/table.h` declare
//! them.

use reference::limits::VARIABLES;
use std::ffi::{c_char, c_int, c_void, CStr};
use std::ptr::null_mut;
use std::slice;

/// The longest table that the host keeps, `TABLE_ROOM` of the header.
pub const TABLE_ROOM: usize = 65_536 + 64;
const NAME_ROOM: usize = 16;

#[repr(C)]
struct Table {
    bytes: [u8; TABLE_ROOM],
    length: usize,
    names: [[u8; NAME_ROOM]; VARIABLES],
}

extern "C" {
    #[link_name = "is_text"]
    fn host_is_text(content: *const u8, length: usize) -> bool;
    fn table_from_text(
        content: *const u8,
        length: usize,
        path: *const c_char,
        into: *mut Table,
    ) -> c_int;
    fn table_print(to: *mut c_void, in_front: *const c_char, bytes: *const u8, length: usize);

    fn open_memstream(text: *mut *mut c_char, length: *mut usize) -> *mut c_void;
    fn fclose(stream: *mut c_void) -> c_int;
    fn free(memory: *mut c_void);
}

/// Whether the host takes a file with these bytes for text.
pub fn is_text(content: &[u8]) -> bool {
    unsafe { host_is_text(content.as_ptr(), content.len()) }
}

/// The host's text of a table.
pub fn printed(table: &[u8]) -> Vec<u8> {
    let (mut text, mut length) = (null_mut(), 0);
    // The stream owns the text until it is closed; afterwards the text is ours to free.
    unsafe {
        let stream = open_memstream(&mut text, &mut length);
        assert!(!stream.is_null(), "no memory for a text");
        table_print(stream, c"".as_ptr(), table.as_ptr(), table.len());
        assert_eq!(fclose(stream), 0);
        let copy = slice::from_raw_parts(text.cast::<u8>(), length).to_vec();
        free(text.cast());
        copy
    }
}

/// What the host read of a text.
pub struct Read(Box<Table>);

impl Read {
    pub fn table(&self) -> &[u8] {
        &self.0.bytes[..self.0.length]
    }

    /// How the text calls a variable; empty where it does not say.
    pub fn name(&self, variable: usize) -> &str {
        let name = CStr::from_bytes_until_nul(&self.0.names[variable]);
        name.expect("ends in a NUL").to_str().expect("letters")
    }
}

/// The table that a text says; none where the host tells an error.
pub fn read(text: &[u8]) -> Option<Read> {
    let mut table = Box::new(Table {
        bytes: [0; TABLE_ROOM],
        length: 0,
        names: [[0; NAME_ROOM]; VARIABLES],
    });
    let (content, length) = (text.as_ptr(), text.len());
    let status =
        unsafe { table_from_text(content, length, c"a test's text".as_ptr(), &mut *table) };
    (status == 0).then_some(Read(table))
}
