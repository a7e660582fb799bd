//! The walk over a list of attributes.
use crate::{DecodeError, NLA_TYPE_MASK};

/// Bytes that begin with an attribute; more may follow it.
#[derive(Debug, PartialEq, Eq, Clone, Copy)]
pub struct NlaBuffer<T: AsRef<[u8]>>(T);

impl<T: AsRef<[u8]>> NlaBuffer<T> {
    pub fn new_checked(bytes: T) -> Result<Self, DecodeError> {
        let remain = bytes.as_ref().len();
        if remain < 4 {
            return Err("head is cut off".into());
        }
        let attribute = Self(bytes);
        if attribute.length() > remain {
            return Err("length field exceeds what remains".into());
        }
        if attribute.length() < 4 {
            return Err("length field is below 4".into());
        }
        Ok(attribute)
    }

    fn field(&self, at: usize) -> u16 {
        let bytes = self.0.as_ref();
        u16::from_le_bytes([bytes[at], bytes[at + 1]])
    }

    fn length(&self) -> usize {
        self.field(0).into()
    }

    pub fn word(&self) -> u16 {
        self.field(2)
    }

    /// The type: the word without its flags.
    pub fn kind(&self) -> u16 {
        self.word() & NLA_TYPE_MASK
    }
}

impl<'a, T: AsRef<[u8]> + ?Sized> NlaBuffer<&'a T> {
    pub fn value(&self) -> &'a [u8] {
        &self.0.as_ref()[4..self.length()]
    }
}

#[derive(Debug, PartialEq, Eq, Clone, Copy)]
pub struct NlasIterator<T> {
    bytes: T,
    at: usize,
}

impl<T> NlasIterator<T> {
    pub fn new(bytes: T) -> Self {
        Self { bytes, at: 0 }
    }
}

impl<'a, T: AsRef<[u8]> + ?Sized> Iterator for NlasIterator<&'a T> {
    type Item = Result<NlaBuffer<&'a [u8]>, DecodeError>;

    fn next(&mut self) -> Option<Self::Item> {
        let bytes = self.bytes.as_ref();
        if self.at >= bytes.len() {
            return None;
        }
        let found = NlaBuffer::new_checked(&bytes[self.at..]);
        match &found {
            Ok(attribute) => self.at += attribute.length().next_multiple_of(4),
            Err(_) => self.at = bytes.len(),
        }
        Some(found)
    }
}
