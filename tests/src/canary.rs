//! Lent buffers with guard entries on both sides, so that a call which writes past a buffer, or writes one it should
//! have left alone, is seen.

use std::fmt::Debug;
use std::ptr::{null, null_mut};

/// Entries before and behind the lent ones.
const GUARD: usize = 64;

/// An entry of a lent buffer.
pub trait Entry: Copy + PartialEq + Debug {
    /// The entry whose bytes are all this one.
    fn of_byte(byte: u8) -> Self;
}

impl Entry for u8 {
    fn of_byte(byte: u8) -> u8 {
        byte
    }
}

impl Entry for u16 {
    fn of_byte(byte: u8) -> u16 {
        u16::from_ne_bytes([byte; 2])
    }
}

impl Entry for u32 {
    fn of_byte(byte: u8) -> u32 {
        u32::from_ne_bytes([byte; 4])
    }
}

impl Entry for i32 {
    fn of_byte(byte: u8) -> i32 {
        i32::from_ne_bytes([byte; 4])
    }
}

pub struct Lent<T> {
    entries: Vec<T>,
    at_entry: Vec<T>,
}

impl<T: Entry> Lent<T> {
    /// A buffer that holds `contents` when it is lent.
    pub fn holding(contents: &[T]) -> Lent<T> {
        let mut entries: Vec<T> = (0..GUARD).map(pattern).collect();
        entries.extend_from_slice(contents);
        entries.extend((0..GUARD).map(|index| pattern::<T>(index + 7)));
        let at_entry = entries.clone();
        Lent { entries, at_entry }
    }

    /// A buffer for a call's result. It holds a pattern without the bytes 0 and 1, so that a place which the call
    /// forgets can't pass for a bit, and a byte of an entry not for the upper one of a small number.
    pub fn marked(length: usize) -> Lent<T> {
        let contents: Vec<T> = (0..length).map(|index| pattern(index + 3)).collect();
        Lent::holding(&contents)
    }

    pub fn slice(&self) -> &[T] {
        &self.entries[GUARD..self.entries.len() - GUARD]
    }

    pub fn slice_mut(&mut self) -> &mut [T] {
        let end = self.entries.len() - GUARD;
        &mut self.entries[GUARD..end]
    }

    /// Whether the buffer and its guards are as they were lent.
    pub fn unchanged(&self) -> bool {
        self.entries == self.at_entry
    }

    /// Whether both guards are as they were.
    pub fn guards_hold(&self) -> bool {
        let end = self.entries.len() - GUARD;
        self.entries[..GUARD] == self.at_entry[..GUARD] && self.entries[end..] == self.at_entry[end..]
    }

    /// Fails unless the buffer is wholly as it was lent.
    #[track_caller]
    pub fn assert_unchanged(&self) {
        assert!(self.guards_hold(), "a guard was written");
        assert!(self.unchanged(), "a buffer was written: {:?}", self.slice());
    }

    /// Fails unless the buffer holds `written`, or, with no list to be written, is as it was lent.
    #[track_caller]
    pub fn assert_holds(&self, written: Option<&[T]>) {
        assert!(self.guards_hold(), "a guard was written");
        match written {
            Some(list) => assert_eq!(self.slice(), list, "a buffer holds another list (left) than it should"),
            None => self.assert_unchanged(),
        }
    }
}

/// Bytes from 160 to 239: neither 0 nor 1, and a different one at each of 80 neighbouring places.
fn pattern<T: Entry>(index: usize) -> T {
    T::of_byte(160 + (index * 23 % 80) as u8)
}

/// A slice as C may lend it: an empty one by a null pointer. The Rust crate never does this.
pub fn pointer<T>(slice: &[T]) -> *const T {
    if slice.is_empty() {
        null()
    } else {
        slice.as_ptr()
    }
}

/// The same for a slice that is written.
pub fn pointer_mut<T>(slice: &mut [T]) -> *mut T {
    if slice.is_empty() {
        null_mut()
    } else {
        slice.as_mut_ptr()
    }
}

#[cfg(test)]
mod tests {
    use super::*;

    #[test]
    fn a_written_place_is_seen() {
        let mut lent: Lent<u8> = Lent::marked(4);
        assert!(lent.unchanged() && lent.guards_hold());
        lent.slice_mut()[3] ^= 1;
        assert!(!lent.unchanged() && lent.guards_hold());
        lent.slice_mut()[3] ^= 1;
        assert!(lent.unchanged());
    }

    #[test]
    fn a_written_guard_is_seen() {
        for place in [0, GUARD - 1, GUARD + 4, 2 * GUARD + 3] {
            let mut lent: Lent<u8> = Lent::holding(&[1, 0, 1, 1]);
            lent.entries[place] ^= 1;
            assert!(!lent.guards_hold() && !lent.unchanged());
        }
    }

    #[test]
    fn the_pattern_holds_no_bit() {
        assert!(Lent::<u8>::marked(300).slice().iter().all(|&byte| byte > 1));
        assert!(Lent::<u16>::marked(300).slice().iter().all(|entry| entry.to_ne_bytes().iter().all(|&byte| byte > 1)));
    }
}
