//! netlink-packet-core made of files of netlink-packet-utils 0.5.1 (`UTILS` is their folder): the walk, the readers,
//! the default attribute and the writer are the real ones; errors and the writers of integers are our stand-ins.
#![allow(dead_code, unused_imports)]

#[path = "../core/error.rs"]
mod error;
#[path = "../core/numbers.rs"]
mod numbers;

mod nla {
    include!(concat!(env!("UTILS"), "/src/nla.rs"));
}
mod parsers {
    include!(concat!(env!("UTILS"), "/src/parsers.rs"));
}
mod traits {
    include!(concat!(env!("UTILS"), "/src/traits.rs"));
}

pub use error::{DecodeError, ErrorContext};
pub use nla::{DefaultNla, Nla, NlaBuffer, NlasIterator, NLA_F_NESTED, NLA_F_NET_BYTEORDER, NLA_TYPE_MASK};
pub use numbers::{emit_u16_be, emit_u32, emit_u32_be};
pub use parsers::*;
pub use traits::{Emitable, Parseable, ParseableParametrized};

impl From<anyhow::Error> for DecodeError {
    fn from(error: anyhow::Error) -> Self {
        error.0.into()
    }
}
