//! Integers of an exact length, and texts.
use crate::DecodeError;

macro_rules! integers {
    ($($read:ident $write:ident $type:ty, $from:ident $to:ident;)*) => {
        $(
            pub fn $read(payload: &[u8]) -> Result<$type, DecodeError> {
                match payload.try_into() {
                    Ok(bytes) => Ok(<$type>::$from(bytes)),
                    Err(_) => Err(format!(
                        "integer of {} bytes wants exactly {}",
                        payload.len(),
                        size_of::<$type>(),
                    )
                    .into()),
                }
            }

            pub fn $write(buffer: &mut [u8], value: $type) -> Result<(), DecodeError> {
                let bytes = value.$to();
                if buffer.len() < bytes.len() {
                    return Err("no room for an integer".into());
                }
                buffer[..bytes.len()].copy_from_slice(&bytes);
                Ok(())
            }
        )*
    };
}

integers! {
    parse_u8 emit_u8 u8, from_le_bytes to_le_bytes;
    parse_u16 emit_u16 u16, from_le_bytes to_le_bytes;
    parse_u32 emit_u32 u32, from_le_bytes to_le_bytes;
    parse_u64 emit_u64 u64, from_le_bytes to_le_bytes;
    parse_i32 emit_i32 i32, from_le_bytes to_le_bytes;
    parse_u16_be emit_u16_be u16, from_be_bytes to_be_bytes;
    parse_u32_be emit_u32_be u32, from_be_bytes to_be_bytes;
    parse_u64_be emit_u64_be u64, from_be_bytes to_be_bytes;
}

/// One zero at the end is dropped; the rest must be UTF-8.
pub fn parse_string(payload: &[u8]) -> Result<String, DecodeError> {
    let text = payload.strip_suffix(&[0]).unwrap_or(payload);
    match std::str::from_utf8(text) {
        Ok(text) => Ok(text.to_string()),
        Err(_) => Err("text is not UTF-8".into()),
    }
}
