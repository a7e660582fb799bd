//! Stand-in for bitflags: a number with named bits, all its bits kept, named or not.
#[macro_export]
macro_rules! bitflags {
    ($(#[$attribute:meta])* $seen:vis struct $name:ident: $number:ty { $($bits:tt)* }) => {
        $(#[$attribute])*
        $seen struct $name($number);

        #[allow(non_upper_case_globals)]
        impl $name {
            $crate::bitflags!(@names $($bits)*);

            pub const fn from_bits_retain(bits: $number) -> Self {
                Self(bits)
            }

            pub const fn bits(&self) -> $number {
                self.0
            }

            pub const fn empty() -> Self {
                Self(0)
            }
        }
    };
    (@names) => {};
    (@names const _ = $value:expr; $($bits:tt)*) => {
        $crate::bitflags!(@names $($bits)*);
    };
    (@names const $bit:ident = $value:expr; $($bits:tt)*) => {
        pub const $bit: Self = Self($value);
        $crate::bitflags!(@names $($bits)*);
    };
}
