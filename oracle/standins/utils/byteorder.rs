//! Stand-in for byteorder: numbers at the start of bytes, little-endian or big-endian.
pub trait ByteOrder {
    fn read_u16(bytes: &[u8]) -> u16;
    fn read_u32(bytes: &[u8]) -> u32;
    fn read_i32(bytes: &[u8]) -> i32;
    fn read_u64(bytes: &[u8]) -> u64;
    fn read_u128(bytes: &[u8]) -> u128;
    fn write_u16(bytes: &mut [u8], number: u16);
}

macro_rules! order {
    ($name:ident $from:ident $to:ident) => {
        pub struct $name;

        impl ByteOrder for $name {
            fn read_u16(bytes: &[u8]) -> u16 {
                u16::$from(bytes[..2].try_into().unwrap())
            }
            fn read_u32(bytes: &[u8]) -> u32 {
                u32::$from(bytes[..4].try_into().unwrap())
            }
            fn read_i32(bytes: &[u8]) -> i32 {
                i32::$from(bytes[..4].try_into().unwrap())
            }
            fn read_u64(bytes: &[u8]) -> u64 {
                u64::$from(bytes[..8].try_into().unwrap())
            }
            fn read_u128(bytes: &[u8]) -> u128 {
                u128::$from(bytes[..16].try_into().unwrap())
            }
            fn write_u16(bytes: &mut [u8], number: u16) {
                bytes[..2].copy_from_slice(&number.$to())
            }
        }
    };
}

order!(BigEndian from_be_bytes to_be_bytes);
order!(NativeEndian from_le_bytes to_le_bytes);
