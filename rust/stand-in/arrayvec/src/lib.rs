//! A stand-in for what `rrs-kit` uses of the crate `arrayvec`, for a build without a registry.
//! `rust/build --registry` takes that crate.
//!
//! Texts stand in an array. The items of an [`ArrayVec`] stand on the heap here.

#![no_std]

extern crate alloc;

use alloc::vec::Vec;
use core::{fmt, ops, str};

/// A text of at most `N` bytes.
#[derive(Clone, Copy)]
pub struct ArrayString<const N: usize> {
    bytes: [u8; N],
    length: usize,
}

impl<const N: usize> ArrayString<N> {
    /// The empty text.
    #[inline]
    pub fn new() -> Self {
        ArrayString {
            bytes: [0; N],
            length: 0,
        }
    }

    /// Appends a text. Panics where there is no room.
    #[inline]
    pub fn push_str(&mut self, text: &str) {
        self.bytes[self.length..][..text.len()].copy_from_slice(text.as_bytes());
        self.length += text.len();
    }

    /// Appends a character. Panics where there is no room.
    #[inline]
    pub fn push(&mut self, c: char) {
        self.push_str(c.encode_utf8(&mut [0; 4]));
    }

    /// Appends bytes of a text. Panics where there is no room. Whether they are UTF-8 is looked at
    /// where the text is asked for.
    #[inline(always)]
    pub fn push_bytes(&mut self, bytes: &[u8]) {
        self.bytes[self.length..][..bytes.len()].copy_from_slice(bytes);
        self.length += bytes.len();
    }

    /// Appends another text. Panics where there is no room. What is behind the text is copied too,
    /// where there is room: a copy of so many bytes is no call.
    #[inline(always)]
    pub fn append<const M: usize>(&mut self, other: &ArrayString<M>) {
        match self.bytes[self.length..].first_chunk_mut() {
            Some(place) => {
                *place = other.bytes;
                self.length += other.length;
            }
            None => self.push_bytes(other.as_bytes()),
        }
    }

    /// The bytes of the text.
    #[inline]
    pub fn as_bytes(&self) -> &[u8] {
        &self.bytes[..self.length]
    }

    /// The text.
    #[inline]
    pub fn as_str(&self) -> &str {
        str::from_utf8(self.as_bytes()).expect("whole texts are appended")
    }
}

impl<const N: usize> Default for ArrayString<N> {
    fn default() -> Self {
        Self::new()
    }
}

impl<const N: usize> ops::Deref for ArrayString<N> {
    type Target = str;

    #[inline]
    fn deref(&self) -> &str {
        self.as_str()
    }
}

impl<const N: usize> fmt::Display for ArrayString<N> {
    fn fmt(&self, f: &mut fmt::Formatter<'_>) -> fmt::Result {
        fmt::Display::fmt(self.as_str(), f)
    }
}

impl<const N: usize> fmt::Debug for ArrayString<N> {
    fn fmt(&self, f: &mut fmt::Formatter<'_>) -> fmt::Result {
        fmt::Debug::fmt(self.as_str(), f)
    }
}

impl<const N: usize> fmt::Write for ArrayString<N> {
    fn write_str(&mut self, text: &str) -> fmt::Result {
        if text.len() > N - self.length {
            return Err(fmt::Error);
        }
        self.push_str(text);
        Ok(())
    }
}

/// At most `N` items.
pub struct ArrayVec<T, const N: usize> {
    items: Vec<T>,
}

/// There is no room for an item.
#[derive(Debug)]
pub struct CapacityError<T = ()>(T);

impl<T> CapacityError<T> {
    /// The item.
    pub fn element(self) -> T {
        self.0
    }
}

impl<T, const N: usize> ArrayVec<T, N> {
    /// No items.
    pub fn new() -> Self {
        ArrayVec { items: Vec::new() }
    }

    /// Appends an item. Panics where there is no room.
    pub fn push(&mut self, item: T) {
        assert!(!self.is_full(), "an ArrayVec is full");
        self.items.push(item);
    }

    /// Appends an item, or returns it where there is no room.
    pub fn try_push(&mut self, item: T) -> Result<(), CapacityError<T>> {
        if self.is_full() {
            return Err(CapacityError(item));
        }
        self.items.push(item);
        Ok(())
    }

    /// The items.
    pub fn as_slice(&self) -> &[T] {
        &self.items
    }

    /// Whether there is no room.
    pub fn is_full(&self) -> bool {
        self.items.len() == N
    }
}

impl<T: Copy, const N: usize> ArrayVec<T, N> {
    /// Appends items, all of them or none.
    pub fn try_extend_from_slice(&mut self, items: &[T]) -> Result<(), CapacityError> {
        if items.len() > N - self.items.len() {
            return Err(CapacityError(()));
        }
        self.items.extend_from_slice(items);
        Ok(())
    }
}

impl<T, const N: usize> Default for ArrayVec<T, N> {
    fn default() -> Self {
        Self::new()
    }
}

impl<T, const N: usize> ops::Deref for ArrayVec<T, N> {
    type Target = [T];

    fn deref(&self) -> &[T] {
        &self.items
    }
}

impl<T, const N: usize> ops::DerefMut for ArrayVec<T, N> {
    fn deref_mut(&mut self) -> &mut [T] {
        &mut self.items
    }
}
