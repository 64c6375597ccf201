//! A buffer as a host lends it.

use reference::host::GUARD;
use std::fmt::Arguments;

/// Guard bytes on each side, to be found again after the call.
pub const GUARDED: usize = 64;

/// No guard bytes: a memory checker knows the first byte before the buffer and the first beyond.
pub const EXACT: usize = 0;

/// Bytes between two margins of guard bytes.
pub struct Lent {
    bytes: Vec<u8>,
    margin: usize,
}

impl Lent {
    pub fn new(content: &[u8], margin: usize) -> Lent {
        let guards = vec![GUARD; margin];
        let bytes = [&guards, content, &guards].concat();
        Lent { bytes, margin }
    }

    pub fn bytes(&self) -> &[u8] {
        &self.bytes[self.margin..self.bytes.len() - self.margin]
    }

    pub fn bytes_mut(&mut self) -> &mut [u8] {
        let end = self.bytes.len() - self.margin;
        &mut self.bytes[self.margin..end]
    }

    /// Every byte is as expected, and the guards are untouched.
    pub fn assert_is(&self, expected: &[u8], name: &str, what: Arguments) {
        assert!(
            self.bytes() == expected,
            "{what}: bytes of the {name} differ"
        );
        let (before, rest) = self.bytes.split_at(self.margin);
        let after = &rest[expected.len()..];
        let untouched = before.iter().chain(after).all(|&byte| byte == GUARD);
        assert!(untouched, "{what}: bytes around the {name} were written");
    }
}
