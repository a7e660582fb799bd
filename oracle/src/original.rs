//! The original files in a module tree of ours. `ORIGINAL` is the folder of their crate.
#![allow(dead_code, unused_doc_comments)]

/// Puts one file of the original here.
macro_rules! original {
    ($file:literal) => {
        include!(concat!(env!("ORIGINAL"), "/src/", $file));
    };
}

pub mod ip {
    original!("ip.rs");
}

pub mod tc {
    pub use actions::*;
    pub use filters::*;
    pub use header::*;
    pub use stats::TcStats2;

    mod header {
        original!("tc/header.rs");
    }

    pub mod filters {
        pub use cls_u32::*;

        mod cls_u32 {
            original!("tc/filters/cls_u32.rs");
        }
        mod u32_flags {
            original!("tc/filters/u32_flags.rs");
        }
    }

    pub mod actions {
        pub use action::*;
        pub use mirror::*;
        pub use nat::*;
        pub use tunnel_key::*;

        mod action {
            original!("tc/actions/action.rs");
        }
        mod mirror {
            original!("tc/actions/mirror.rs");
        }
        mod nat {
            original!("tc/actions/nat.rs");
        }
        mod nat_flag {
            original!("tc/actions/nat_flag.rs");
        }
        mod tunnel_key {
            original!("tc/actions/tunnel_key.rs");
        }
    }

    mod stats {
        pub use crate::raw::{TcStatsBasic, TcStatsQueue, TcXstats};
        pub use stats2::TcStats2;

        mod stats2 {
            original!("tc/stats/stats2.rs");
        }
    }
}
