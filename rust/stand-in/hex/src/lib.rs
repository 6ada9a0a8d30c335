//! What `rrs-kit` uses of the crate `hex`. That of Rattle is passed an allocator, and that of
//! crates.io is not, so this one stands for it.

#![no_std]

extern crate rattle_std as std;

use std::alloc::{AllocError, Global};
use std::prelude::*;

/// Why a text is not the hexadecimal digits of bytes.
#[derive(Clone, Copy, Debug, PartialEq)]
pub enum FromHexError {
    /// A character is no hexadecimal digit.
    InvalidHexCharacter {
        /// The character.
        c: char,
        /// Its place.
        index: usize,
    },
    /// The number of digits is odd.
    OddLength,
    /// There are digits for more or fewer bytes than were asked for.
    InvalidStringLength,
    /// Memory ran out.
    OutOfMemory,
}

impl From<AllocError> for FromHexError {
    fn from(_: AllocError) -> Self {
        FromHexError::OutOfMemory
    }
}

/// The value of the digit at a place.
fn digit(data: &[u8], index: usize) -> Result<u8, FromHexError> {
    let c = char::from(data[index]);
    let value = c
        .to_digit(16)
        .ok_or(FromHexError::InvalidHexCharacter { c, index })?;
    Ok(value as u8)
}

/// Decodes the digits of as many bytes as `out` has. After an error a beginning of them is decoded.
pub fn decode_to_slice<T: AsRef<[u8]>>(data: T, out: &mut [u8]) -> Result<(), FromHexError> {
    let data = data.as_ref();
    if data.len() % 2 != 0 {
        return Err(FromHexError::OddLength);
    }
    if data.len() / 2 != out.len() {
        return Err(FromHexError::InvalidStringLength);
    }
    for (i, byte) in out.iter_mut().enumerate() {
        *byte = (digit(data, 2 * i)? << 4) | digit(data, 2 * i + 1)?;
    }
    Ok(())
}

/// The bytes of digits.
pub fn decode<T: AsRef<[u8]>>(alloc: Global, data: T) -> Result<Vec<u8>, FromHexError> {
    let data = data.as_ref();
    if data.len() % 2 != 0 {
        return Err(FromHexError::OddLength);
    }
    let mut bytes = Vec::with_room(alloc, data.len() / 2)?;
    bytes.resize(data.len() / 2, 0);
    decode_to_slice(data, &mut bytes)?;
    Ok(bytes)
}

/// What can be decoded.
pub trait FromHex: Sized {
    /// Why a text can't be.
    type Error;

    /// The value of digits.
    fn from_hex<T: AsRef<[u8]>>(hex: T) -> Result<Self, Self::Error>;
}

impl<const N: usize> FromHex for [u8; N] {
    type Error = FromHexError;

    fn from_hex<T: AsRef<[u8]>>(hex: T) -> Result<Self, FromHexError> {
        let mut bytes = [0; N];
        decode_to_slice(hex, &mut bytes)?;
        Ok(bytes)
    }
}
