//! Stand-ins for neighbours of the original files that no compared filter reaches.
#![allow(dead_code)]
use netlink_packet_core::{DecodeError, Emitable, NlaBuffer};

/// Statistics are left out of the comparison: their records are raw bytes.
macro_rules! raw_records {
    ($($name:ident)*) => {
        $(
            #[derive(Debug, PartialEq, Eq, Clone)]
            pub struct $name(Vec<u8>);

            impl $name {
                pub fn parse(payload: &[u8]) -> Result<Self, DecodeError> {
                    Ok(Self(payload.to_vec()))
                }

                pub fn parse_with_param<T: AsRef<[u8]> + ?Sized>(
                    from: &NlaBuffer<&T>,
                    _kind: &str,
                ) -> Result<Self, DecodeError> {
                    Self::parse(from.value())
                }
            }

            impl Emitable for $name {
                fn buffer_len(&self) -> usize {
                    self.0.len()
                }

                fn emit(&self, buffer: &mut [u8]) {
                    buffer.copy_from_slice(&self.0);
                }
            }
        )*
    };
}

raw_records! { TcStatsBasic TcStatsQueue TcXstats }

/// The header of a message is not compared; its family is a number.
#[derive(Debug, PartialEq, Eq, Clone, Copy, Default)]
pub struct AddressFamily(u8);

impl From<u8> for AddressFamily {
    fn from(number: u8) -> Self {
        Self(number)
    }
}

impl From<AddressFamily> for u8 {
    fn from(family: AddressFamily) -> u8 {
        family.0
    }
}
