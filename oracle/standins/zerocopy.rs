//! Stand-in for zerocopy: a packed struct of integers seen as bytes, and the other way.
use std::mem::size_of;
use std::slice::from_raw_parts;

pub use zerocopy_derive::{FromBytes, Immutable, IntoBytes, KnownLayout, Unaligned};

/// Implemented only by derive, for packed structs of integers, arrays of them and each other.
pub unsafe trait KnownLayout {}
pub unsafe trait Immutable {}
pub unsafe trait Unaligned {}

pub unsafe trait FromBytes: Sized {
    /// The first bytes as this struct, and the bytes behind; refused if there are too few.
    fn ref_from_prefix(bytes: &[u8]) -> Result<(&Self, &[u8]), TooFewBytes>
    where
        Self: KnownLayout + Immutable + Unaligned,
    {
        assert_eq!(std::mem::align_of::<Self>(), 1);
        if bytes.len() < size_of::<Self>() {
            return Err(TooFewBytes);
        }
        let (first, behind) = bytes.split_at(size_of::<Self>());
        Ok((unsafe { &*(first.as_ptr() as *const Self) }, behind))
    }
}

pub unsafe trait IntoBytes: Sized {
    /// The bytes of this struct.
    fn as_bytes(&self) -> &[u8]
    where
        Self: Immutable,
    {
        assert_eq!(std::mem::align_of::<Self>(), 1);
        unsafe { from_raw_parts(self as *const Self as *const u8, size_of::<Self>()) }
    }
}

#[derive(Debug)]
pub struct TooFewBytes;
