//! The names that a source has without an import, and the calls of containers that allocate.
//!
//! A call of the name `try_..`, or one that is passed the allocator, is that of Rust of the name in
//! its docs. It returns an error where memory ran out, and the container is as it was.

use crate::alloc::{AllocError, AllocFailed, Global};
pub use crate::rt::AllocGlobal;
#[cfg(feature = "std")]
pub use crate::rt::{Eprint, HostRuntime, Input, Print};
use core::fmt::Display;
pub use heap::borrow::ToOwned;
pub use heap::boxed::Box;
use heap::collections::BTreeMap;
pub use heap::string::{String, ToString};
pub use heap::vec::Vec;
#[cfg(feature = "std")]
use host::io::{self, BufReader, BufWriter, Read, Write};

/// The calls of a `Vec` that allocate.
pub trait TryVec<T>: Sized {
    /// An empty vector.
    fn empty(alloc: Global) -> Self;
    /// An empty vector with room.
    fn with_room(alloc: Global, capacity: usize) -> Result<Self, AllocError>;
    /// A vector of clones of the items.
    fn of_slice(alloc: Global, items: &[T]) -> Result<Self, AllocError>
    where
        T: Clone;
    /// `Vec::push`.
    fn try_push(&mut self, item: T) -> Result<(), AllocFailed<T>>;
    /// `Vec::push`, where there is room.
    fn push_reserved(&mut self, item: T);
    /// `Vec::insert`.
    fn try_put(&mut self, place: usize, item: T) -> Result<(), AllocFailed<T>>;
    /// `Vec::reserve`.
    fn try_make_room(&mut self, more: usize) -> Result<(), AllocError>;
    /// `Vec::resize`.
    fn try_resize(&mut self, length: usize, item: T) -> Result<(), AllocError>
    where
        T: Clone;
    /// `Vec::extend_from_slice`.
    fn try_extend_from_slice(&mut self, items: &[T]) -> Result<(), AllocError>
    where
        T: Clone;
}

impl<T> TryVec<T> for Vec<T> {
    #[inline]
    fn empty(_: Global) -> Self {
        Vec::new()
    }

    #[inline]
    fn with_room(_: Global, capacity: usize) -> Result<Self, AllocError> {
        let mut new = Vec::new();
        new.try_reserve_exact(capacity)?;
        Ok(new)
    }

    fn of_slice(alloc: Global, items: &[T]) -> Result<Self, AllocError>
    where
        T: Clone,
    {
        items.copied_in(alloc)
    }

    #[inline]
    fn try_push(&mut self, item: T) -> Result<(), AllocFailed<T>> {
        if self.try_reserve(1).is_err() {
            return Err(AllocFailed { value: item });
        }
        self.push(item);
        Ok(())
    }

    #[inline]
    fn push_reserved(&mut self, item: T) {
        self.push(item);
    }

    #[inline]
    fn try_put(&mut self, place: usize, item: T) -> Result<(), AllocFailed<T>> {
        if self.try_reserve(1).is_err() {
            return Err(AllocFailed { value: item });
        }
        self.insert(place, item);
        Ok(())
    }

    #[inline]
    fn try_make_room(&mut self, more: usize) -> Result<(), AllocError> {
        Ok(self.try_reserve(more)?)
    }

    #[inline]
    fn try_resize(&mut self, length: usize, item: T) -> Result<(), AllocError>
    where
        T: Clone,
    {
        self.try_reserve(length.saturating_sub(self.len()))?;
        self.resize(length, item);
        Ok(())
    }

    #[inline]
    fn try_extend_from_slice(&mut self, items: &[T]) -> Result<(), AllocError>
    where
        T: Clone,
    {
        self.try_reserve(items.len())?;
        self.extend_from_slice(items);
        Ok(())
    }
}

/// The calls of a `String` that allocate.
pub trait TryString: Sized {
    /// An empty text.
    fn empty(alloc: Global) -> Self;
    /// A copy of a text.
    fn copied(alloc: Global, text: &str) -> Result<Self, AllocError>;
    /// `String::push_str`.
    fn try_push_str(&mut self, text: &str) -> Result<(), AllocError>;
}

impl TryString for String {
    #[inline]
    fn empty(_: Global) -> Self {
        String::new()
    }

    #[inline]
    fn copied(alloc: Global, text: &str) -> Result<Self, AllocError> {
        let mut new = Self::empty(alloc);
        new.try_push_str(text)?;
        Ok(new)
    }

    #[inline]
    fn try_push_str(&mut self, text: &str) -> Result<(), AllocError> {
        self.try_reserve(text.len())?;
        self.push_str(text);
        Ok(())
    }
}

/// The calls of a map that allocate. Rust's has none that can fail, and stops the program.
pub trait TryMap<K, V> {
    /// An empty map.
    fn empty(alloc: Global) -> Self;
    /// `BTreeMap::insert`.
    fn try_put(&mut self, key: K, value: V) -> Result<Option<V>, AllocFailed<(K, V)>>
    where
        K: Ord;
}

impl<K, V> TryMap<K, V> for BTreeMap<K, V> {
    fn empty(_: Global) -> Self {
        BTreeMap::new()
    }

    fn try_put(&mut self, key: K, value: V) -> Result<Option<V>, AllocFailed<(K, V)>>
    where
        K: Ord,
    {
        Ok(self.insert(key, value))
    }
}

/// `Box::new`. Rust's stops the program where memory ran out.
pub trait TryBox<T>: Sized {
    /// A value on the heap.
    fn boxed(alloc: Global, value: T) -> Result<Self, AllocFailed<T>>;
}

impl<T> TryBox<T> for Box<T> {
    fn boxed(_: Global, value: T) -> Result<Self, AllocFailed<T>> {
        Ok(Box::new(value))
    }
}

#[cfg(feature = "std")]
/// Buffers over a reader or a writer.
pub trait TryBuffer<T>: Sized {
    /// A buffer.
    fn buffered(alloc: Global, inner: T) -> io::Result<Self>;
}

#[cfg(feature = "std")]
impl<R: Read> TryBuffer<R> for BufReader<R> {
    fn buffered(_: Global, inner: R) -> io::Result<Self> {
        Ok(BufReader::new(inner))
    }
}

#[cfg(feature = "std")]
impl<W: Write> TryBuffer<W> for BufWriter<W> {
    fn buffered(_: Global, inner: W) -> io::Result<Self> {
        Ok(BufWriter::new(inner))
    }
}

/// The calls of a slice that allocate.
pub trait TrySlice<T> {
    /// `<[T]>::sort_by_key`. Rust's stops the program where memory ran out.
    fn try_sort_by_key<K: Ord, F: FnMut(&T) -> K>(&mut self, key: F) -> Result<(), AllocError>;
    /// A vector of clones of the items.
    fn copied_in(&self, alloc: Global) -> Result<Vec<T>, AllocError>;
}

impl<T: Clone> TrySlice<T> for [T] {
    fn try_sort_by_key<K: Ord, F: FnMut(&T) -> K>(&mut self, key: F) -> Result<(), AllocError> {
        self.sort_by_key(key);
        Ok(())
    }

    fn copied_in(&self, alloc: Global) -> Result<Vec<T>, AllocError> {
        let mut items = Vec::with_room(alloc, self.len())?;
        items.extend_from_slice(self);
        Ok(items)
    }
}

/// The calls of a text that allocate.
pub trait TryText {
    /// What owns such a text.
    type Owned;
    /// The text in lower case.
    fn to_ascii_lowercase_in(&self, alloc: Global) -> Result<Self::Owned, AllocError>;
}

impl TryText for [u8] {
    type Owned = Vec<u8>;

    fn to_ascii_lowercase_in(&self, alloc: Global) -> Result<Vec<u8>, AllocError> {
        let mut new = self.copied_in(alloc)?;
        new.make_ascii_lowercase();
        Ok(new)
    }
}

impl TryText for str {
    type Owned = String;

    fn to_ascii_lowercase_in(&self, alloc: Global) -> Result<String, AllocError> {
        let mut new = String::copied(alloc, self)?;
        new.make_ascii_lowercase();
        Ok(new)
    }
}

/// `Iterator::collect`.
pub trait TryIterator: Iterator + Sized {
    /// A vector of the items.
    fn collect_in(self, alloc: Global) -> Result<Vec<Self::Item>, AllocError> {
        let mut items = Vec::empty(alloc);
        for item in self {
            items.try_push(item)?;
        }
        Ok(items)
    }
}

impl<I: Iterator> TryIterator for I {}

/// `ToString::to_string`.
pub trait TryDisplay: Display {
    /// The value's text.
    fn to_string_in(&self, alloc: Global) -> Result<String, AllocError> {
        crate::format!(in alloc; "{self}")
    }
}

impl<D: Display> TryDisplay for D {}

/// `Clone::clone`.
pub trait TryClone: Clone {
    /// A clone.
    fn try_clone(&self) -> Result<Self, AllocError> {
        Ok(self.clone())
    }
}

impl<T: Clone> TryClone for T {}
