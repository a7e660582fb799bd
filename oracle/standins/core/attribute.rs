//! What can be written as an attribute, its one writer, and the default attribute.
use crate::{DecodeError, Emitable, NlaBuffer, Parseable};

pub const NLA_F_NESTED: u16 = 0x8000;
pub const NLA_F_NET_BYTEORDER: u16 = 0x4000;
pub const NLA_TYPE_MASK: u16 = 0x3FFF;

pub trait Nla {
    fn value_len(&self) -> usize;
    fn kind(&self) -> u16;
    fn emit_value(&self, buffer: &mut [u8]);
}

impl<Value: Nla> Emitable for Value {
    fn buffer_len(&self) -> usize {
        4 + self.value_len().next_multiple_of(4)
    }

    /// Length, word, payload, zeros. It panics where the length field cannot tell the length.
    fn emit(&self, buffer: &mut [u8]) {
        let length = 4 + self.value_len();
        let field = u16::try_from(length).expect("payload too long");
        buffer[..2].copy_from_slice(&field.to_le_bytes());
        buffer[2..4].copy_from_slice(&self.kind().to_le_bytes());
        self.emit_value(&mut buffer[4..length]);
        buffer[length..length.next_multiple_of(4)].fill(0);
    }
}

impl<Value: Nla> Emitable for &[Value] {
    fn buffer_len(&self) -> usize {
        self.iter().map(|value| value.buffer_len()).sum()
    }

    fn emit(&self, buffer: &mut [u8]) {
        let mut at = 0;
        for value in self.iter() {
            let end = at + value.buffer_len();
            value.emit(&mut buffer[at..end]);
            at = end;
        }
    }
}

/// Its payload is not interpreted; the word has both flags.
#[derive(Debug, PartialEq, Eq, Clone)]
pub struct DefaultNla {
    word: u16,
    payload: Vec<u8>,
}

impl<'a, T: AsRef<[u8]> + ?Sized> Parseable<NlaBuffer<&'a T>> for DefaultNla {
    fn parse(from: &NlaBuffer<&'a T>) -> Result<Self, DecodeError> {
        Ok(Self { word: from.word(), payload: from.value().to_vec() })
    }
}

impl Nla for DefaultNla {
    fn value_len(&self) -> usize {
        self.payload.len()
    }

    fn kind(&self) -> u16 {
        self.word
    }

    fn emit_value(&self, buffer: &mut [u8]) {
        buffer.copy_from_slice(&self.payload);
    }
}
