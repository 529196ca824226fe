//! A buffer lent to a call, with guard bytes before and after it.

use std::ptr::NonNull;

/// How many guard bytes there are at least on either side.
const GUARD: usize = 64;

pub struct Lent {
    bytes: Vec<u8>,
    start: usize,
    length: usize,
    guard: u8,
}

impl Lent {
    pub fn new() -> Lent {
        Lent { bytes: Vec::new(), start: 0, length: 0, guard: 0 }
    }

    /// Lends these bytes, `shift` further on than otherwise, among guard bytes of this value.
    pub fn lend(&mut self, content: &[u8], shift: usize, guard: u8) {
        let start = GUARD + shift;
        self.bytes.clear();
        self.bytes.resize(start, guard);
        self.bytes.extend_from_slice(content);
        self.bytes.resize(start + content.len() + GUARD, guard);
        (self.start, self.length, self.guard) = (start, content.len(), guard);
    }

    pub fn len(&self) -> usize {
        self.length
    }

    /// For a length of 0 a pointer that is not null and that nothing can be read through.
    pub fn pointer(&mut self) -> *mut u8 {
        if self.length == 0 {
            return NonNull::dangling().as_ptr();
        }
        self.bytes[self.start..].as_mut_ptr()
    }

    pub fn content(&self) -> &[u8] {
        &self.bytes[self.start..self.start + self.length]
    }

    /// No guard byte has changed.
    pub fn is_guarded(&self) -> bool {
        let (before, rest) = self.bytes.split_at(self.start);
        before.iter().chain(&rest[self.length..]).all(|&byte| byte == self.guard)
    }

    /// For the self test: writes these bytes in place of the content, which is as long.
    pub fn write(&mut self, content: &[u8]) {
        self.bytes[self.start..self.start + self.length].copy_from_slice(content);
    }

    /// For the self test: changes the first guard byte after the content.
    pub fn break_guard(&mut self) {
        self.bytes[self.start + self.length] ^= 1;
    }

    /// For the self test: changes the last byte of the content, if there is one.
    pub fn change_last(&mut self) {
        if self.length > 0 {
            self.bytes[self.start + self.length - 1] ^= 1;
        }
    }
}
