//! What `rrs-kit` uses of the crate `circular_buffer`. That of Rattle is passed an allocator, and
//! that of crates.io is not, so this one stands for it.

#![no_std]

extern crate rattle_std as std;

use std::alloc::{AllocError, Global};
use std::collections::{VecDeque, vec_deque};

/// A buffer of a number of items, in which a new item takes the place of the oldest.
#[derive(Debug)]
pub struct HeapCircularBuffer<T> {
    items: VecDeque<T>,
    capacity: usize,
}

impl<T> HeapCircularBuffer<T> {
    /// An empty buffer for so many items. An error where memory ran out.
    pub fn with_capacity(_: Global, capacity: usize) -> Result<Self, AllocError> {
        let mut items = VecDeque::new();
        items.try_reserve_exact(capacity)?;
        Ok(HeapCircularBuffer { items, capacity })
    }

    /// For how many items there is room.
    pub fn capacity(&self) -> usize {
        self.capacity
    }

    /// How many items there are.
    pub fn len(&self) -> usize {
        self.items.len()
    }

    /// Whether there are none.
    pub fn is_empty(&self) -> bool {
        self.items.is_empty()
    }

    /// The first item.
    pub fn front(&self) -> Option<&T> {
        self.items.front()
    }

    /// The items in two parts, the first ones first.
    pub fn as_slices(&self) -> (&[T], &[T]) {
        self.items.as_slices()
    }

    /// The items, the first one first.
    pub fn iter(&self) -> vec_deque::Iter<'_, T> {
        self.items.iter()
    }

    /// Takes all items away.
    pub fn clear(&mut self) {
        self.items.clear();
    }

    /// Puts an item before the first. Returns the last one where there was no room, and it is gone;
    /// where there is room for none, the item itself.
    pub fn push_front(&mut self, item: T) -> Option<T> {
        if self.capacity == 0 {
            return Some(item);
        }
        let is_full = self.items.len() == self.capacity;
        let last = if is_full { self.items.pop_back() } else { None };
        self.items.push_front(item);
        last
    }

    /// Takes the first item away.
    pub fn pop_front(&mut self) -> Option<T> {
        self.items.pop_front()
    }
}

impl<T: Copy> HeapCircularBuffer<T> {
    /// Puts items after the last, as many as there is room for. Returns how many.
    pub fn fill_from_slice(&mut self, other: &[T]) -> usize {
        let count = other.len().min(self.capacity - self.items.len());
        self.items.extend(&other[..count]);
        count
    }
}
