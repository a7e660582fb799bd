//! Stand-in for the derives of zerocopy: each implements its trait for the struct that follows.
extern crate proc_macro;
use proc_macro::{TokenStream, TokenTree};

/// The word after `struct`.
fn name(item: TokenStream) -> String {
    let mut tokens = item.into_iter();
    while let Some(token) = tokens.next() {
        if let TokenTree::Ident(word) = &token {
            if word.to_string() == "struct" {
                return tokens.next().expect("a name after `struct`").to_string();
            }
        }
    }
    panic!("not a struct");
}

fn implement(of: &str, item: TokenStream) -> TokenStream {
    format!("unsafe impl ::zerocopy::{of} for {} {{}}", name(item)).parse().unwrap()
}

macro_rules! derives {
    ($($function:ident $of:ident;)*) => {
        $(
            #[proc_macro_derive($of)]
            pub fn $function(item: TokenStream) -> TokenStream {
                implement(stringify!($of), item)
            }
        )*
    };
}

derives! {
    from_bytes FromBytes;
    into_bytes IntoBytes;
    known_layout KnownLayout;
    immutable Immutable;
    unaligned Unaligned;
}
