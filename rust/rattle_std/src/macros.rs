//! The macros that are passed an allocator or a runtime.

/// `vec!` in an allocator: `vec![in alloc; item; count]`, `vec![in alloc; a, b, c]`. An error where
/// memory ran out.
#[macro_export]
macro_rules! vec {
    (in $alloc:expr; $item:expr; $count:expr) => {
        $crate::hidden::repeated($alloc, $item, $count)
    };
    (in $alloc:expr; $($item:expr),* $(,)?) => {
        $crate::hidden::listed($alloc, [$($item),*])
    };
    (in $alloc:expr) => {
        $crate::hidden::listed($alloc, [])
    };
}

/// `format!` in an allocator: `format!(in alloc; "{x}")`. An error where memory ran out.
#[macro_export]
macro_rules! format {
    (in $alloc:expr; $($what:tt)*) => {
        $crate::hidden::formatted($alloc, $crate::format_args!($($what)*))
    };
}

/// `println!` by a runtime: `println!(rt; "{x}")`.
#[macro_export]
macro_rules! println {
    ($rt:expr; $($what:tt)*) => {{
        use $crate::rt::Print as _;
        $rt.println($crate::format_args!($($what)*))
    }};
}

/// `eprintln!` by a runtime: `eprintln!(rt; "{x}")`.
#[macro_export]
macro_rules! eprintln {
    ($rt:expr; $($what:tt)*) => {{
        use $crate::rt::Eprint as _;
        $rt.eprintln($crate::format_args!($($what)*))
    }};
}

/// `assert!` by a runtime: `assert!(rt; condition)`. It panics, as Rust's does.
#[macro_export]
macro_rules! assert {
    ($rt:expr; $($what:tt)*) => {{
        let _ = &$rt;
        $crate::hidden::assert!($($what)*)
    }};
}

/// `assert_eq!` by a runtime: `assert_eq!(rt; left, right)`. It panics, as Rust's does.
#[macro_export]
macro_rules! assert_eq {
    ($rt:expr; $($what:tt)*) => {{
        let _ = &$rt;
        $crate::hidden::assert_eq!($($what)*)
    }};
}

/// What Rattle proves before it compiles. Rust evaluates it as it compiles, in a `const`.
#[macro_export]
macro_rules! prove {
    ($($what:tt)*) => {
        $crate::hidden::assert!($($what)*)
    };
}

/// What the macros call.
#[doc(hidden)]
pub mod hidden {
    use crate::alloc::{AllocError, Global};
    use crate::prelude::{TryString, TryVec};
    use crate::text::WriteText;
    use core::fmt;
    pub use core::{assert, assert_eq};
    use heap::string::String;
    use heap::vec::Vec;

    pub fn formatted(alloc: Global, what: fmt::Arguments<'_>) -> Result<String, AllocError> {
        let mut text = String::empty(alloc);
        text.write_fmt(what)?;
        Ok(text)
    }

    pub fn repeated<T: Clone>(alloc: Global, item: T, count: usize) -> Result<Vec<T>, AllocError> {
        let mut items = Vec::with_room(alloc, count)?;
        items.resize(count, item);
        Ok(items)
    }

    pub fn listed<T, const N: usize>(alloc: Global, items: [T; N]) -> Result<Vec<T>, AllocError> {
        let mut list = Vec::with_room(alloc, N)?;
        list.extend(items);
        Ok(list)
    }
}
