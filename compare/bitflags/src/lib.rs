//! Stands in for the crate of this name, of which the Rust uses one macro, for `RegionFlags`
//! in binary.rs. No answer depends on it: flags are made and carried, never read.

#[macro_export]
macro_rules! bitflags {
    (
        $(#[$attribute:meta])*
        $visibility:vis struct $name:ident: $bits:ty {
            $(const $flag:ident = $value:expr;)*
        }
    ) => {
        $(#[$attribute])*
        $visibility struct $name($bits);

        impl $name {
            $(pub const $flag: $name = $name($value);)*
        }

        impl core::ops::BitOr for $name {
            type Output = $name;

            fn bitor(self, other: $name) -> $name {
                $name(self.0 | other.0)
            }
        }
    };
}
