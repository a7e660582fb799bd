//! What can be read from something, and what can be written.
use crate::DecodeError;

pub trait Parseable<From: ?Sized>: Sized {
    fn parse(from: &From) -> Result<Self, DecodeError>;
}

pub trait ParseableParametrized<From: ?Sized, With>: Sized {
    fn parse_with_param(from: &From, with: With) -> Result<Self, DecodeError>;
}

pub trait Emitable {
    fn buffer_len(&self) -> usize;
    fn emit(&self, buffer: &mut [u8]);
}
