//! A stand-in for what `rrs-kit` uses of the crate `itoa`, for a build without a registry.
//! `rust/build --registry` takes that crate.

#![no_std]

use core::str;

/// Room for the digits of a number.
#[derive(Clone, Copy)]
pub struct Buffer {
    bytes: [u8; 40],
}

/// The numbers that are formatted.
pub trait Integer: Copy {
    #[doc(hidden)]
    fn sign_and_magnitude(self) -> (bool, u64);
}

macro_rules! integers {
    ($is_negative:expr, $magnitude:expr; $($number:ty)*) => {
        $(impl Integer for $number {
            #[inline]
            fn sign_and_magnitude(self) -> (bool, u64) {
                ($is_negative(self as i64), $magnitude(self as i64))
            }
        })*
    };
}

integers!(|_| false, |number| number as u64; u8 u16 u32 u64 usize);
integers!(|number| number < 0, i64::unsigned_abs; i8 i16 i32 i64 isize);

impl Buffer {
    /// The room, with nothing in it.
    #[inline]
    pub fn new() -> Buffer {
        Buffer { bytes: [0; 40] }
    }

    /// The decimal digits of a number, after a `-` where it is negative.
    #[inline]
    pub fn format<I: Integer>(&mut self, number: I) -> &str {
        str::from_utf8(self.digits(number)).expect("digits are ASCII")
    }

    /// The same as bytes.
    #[inline]
    pub fn digits<I: Integer>(&mut self, number: I) -> &[u8] {
        let (is_negative, mut rest) = number.sign_and_magnitude();
        let mut at = self.bytes.len();
        loop {
            at -= 1;
            self.bytes[at] = b'0' + (rest % 10) as u8;
            rest /= 10;
            if rest == 0 {
                break;
            }
        }
        if is_negative {
            at -= 1;
            self.bytes[at] = b'-';
        }
        &self.bytes[at..]
    }
}

impl Default for Buffer {
    fn default() -> Self {
        Self::new()
    }
}
