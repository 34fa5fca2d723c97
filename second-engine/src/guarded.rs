//! Bytes between guards.

use crate::library::{guard_byte, GUARD};
use std::ptr;

pub struct Guarded {
    bytes: Vec<u8>,
    /// The same, as they were lent.
    before: Vec<u8>,
    place: usize,
    length: usize,
}

impl Guarded {
    /// The content, and what lies directly behind it; it begins at an even or an odd place.
    pub fn new(content: &[u8], behind: &[u8], odd: bool) -> Guarded {
        let place = GUARD + usize::from(odd);
        let length = content.len();
        let mut bytes: Vec<u8> = (0..place).map(guard_byte).collect();
        bytes.extend(content);
        bytes.extend(behind);
        bytes.extend((0..GUARD).map(guard_byte));
        let before = bytes.clone();
        Guarded {
            bytes,
            before,
            place,
            length,
        }
    }

    /// Where the content begins; null, if wished for, where it has no bytes.
    pub fn lent(&mut self, null: bool) -> *mut u8 {
        if null && self.length == 0 {
            return ptr::null_mut();
        }
        self.bytes.as_mut_ptr().wrapping_add(self.place)
    }

    /// The content, as it is now.
    pub fn inside(&self) -> &[u8] {
        &self.bytes[self.place..self.place + self.length]
    }

    /// Whether bytes beside the content were written.
    pub fn written_beside(&self) -> bool {
        let end = self.place + self.length;
        self.bytes[..self.place] != self.before[..self.place]
            || self.bytes[end..] != self.before[end..]
    }
}
