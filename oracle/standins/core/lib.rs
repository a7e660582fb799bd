//! Stand-in for netlink-packet-core, with the meaning that docs/FORMAT.md gives.
mod attribute;
mod error;
mod numbers;
mod traits;
mod walk;

pub use attribute::{DefaultNla, Nla, NLA_F_NESTED, NLA_F_NET_BYTEORDER, NLA_TYPE_MASK};
pub use error::{DecodeError, ErrorContext};
pub use numbers::*;
pub use traits::{Emitable, Parseable, ParseableParametrized};
pub use walk::{NlaBuffer, NlasIterator};
