//! The calls `cast_signed` and `cast_unsigned` for a Rust before 1.87. From then on numbers have
//! them, and these are not called.

/// A number without a sign.
pub trait CastSigned {
    /// The type of its width with one.
    type Signed;
    /// The number of the same bits with a sign.
    fn cast_signed(self) -> Self::Signed;
}

/// A number with a sign.
pub trait CastUnsigned {
    /// The type of its width without one.
    type Unsigned;
    /// The number of the same bits without a sign.
    fn cast_unsigned(self) -> Self::Unsigned;
}

macro_rules! casts {
    ($($unsigned:ty, $signed:ty;)*) => {$(
        impl CastSigned for $unsigned {
            type Signed = $signed;
            #[inline]
            fn cast_signed(self) -> $signed {
                self as $signed
            }
        }
        impl CastUnsigned for $signed {
            type Unsigned = $unsigned;
            #[inline]
            fn cast_unsigned(self) -> $unsigned {
                self as $unsigned
            }
        }
    )*};
}

casts!(u8, i8; u16, i16; u32, i32; u64, i64;);
