//! Words of bits that have names: what [`Signals`](crate::Signals) and [`Rights`](crate::Rights) share.

use core::fmt;

/// Writes the names of a word's bits, and those that have none as one number.
pub(crate) fn write_names(
    formatter: &mut fmt::Formatter<'_>,
    word: u32,
    names: &[(&str, u32)],
) -> fmt::Result {
    if word == 0 {
        return formatter.write_str("NONE");
    }
    let (mut rest, mut between) = (word, "");
    for (name, bit) in names.iter().filter(|(_, bit)| word & bit != 0) {
        write!(formatter, "{between}{name}")?;
        (rest, between) = (rest & !bit, " | ");
    }
    if rest == 0 {
        return Ok(());
    }
    write!(formatter, "{between}{rest:#x}")
}

/// Makes a type of a word whose bits have names. `!` stays within the bits of `of`.
macro_rules! flags {
    ($(#[$about:meta])* $type:ident of $bits:expr; $($(#[$doc:meta])* $name:ident = $bit:literal;)*) => {
        $(#[$about])*
        #[derive(Clone, Copy, Default, Eq, Hash, PartialEq)]
        pub struct $type(u32);

        impl $type {
            /// No bit.
            pub const NONE: $type = $type(0);
            $($(#[$doc])* pub const $name: $type = $type($bit);)*

            /// The word.
            pub const fn bits(self) -> u32 {
                self.0
            }

            /// Whether there is no bit.
            pub const fn is_empty(self) -> bool {
                self.0 == 0
            }

            /// Whether all bits of the other word are there.
            pub const fn contains(self, other: $type) -> bool {
                self.0 & other.0 == other.0
            }

            /// Whether one bit of the other word is there.
            pub const fn intersects(self, other: $type) -> bool {
                self.0 & other.0 != 0
            }
        }

        impl core::ops::BitOr for $type {
            type Output = $type;

            fn bitor(self, other: $type) -> $type {
                $type(self.0 | other.0)
            }
        }

        impl core::ops::BitOrAssign for $type {
            fn bitor_assign(&mut self, other: $type) {
                *self = *self | other;
            }
        }

        impl core::ops::BitAnd for $type {
            type Output = $type;

            fn bitand(self, other: $type) -> $type {
                $type(self.0 & other.0)
            }
        }

        impl core::ops::BitAndAssign for $type {
            fn bitand_assign(&mut self, other: $type) {
                *self = *self & other;
            }
        }

        impl core::ops::Not for $type {
            type Output = $type;

            fn not(self) -> $type {
                $type(!self.0 & $bits)
            }
        }

        impl core::fmt::Debug for $type {
            fn fmt(&self, formatter: &mut core::fmt::Formatter<'_>) -> core::fmt::Result {
                formatter.write_str(concat!(stringify!($type), "("))?;
                $crate::flags::write_names(formatter, self.0, &[$((stringify!($name), $bit)),*])?;
                formatter.write_str(")")
            }
        }

        impl core::fmt::LowerHex for $type {
            fn fmt(&self, formatter: &mut core::fmt::Formatter<'_>) -> core::fmt::Result {
                core::fmt::LowerHex::fmt(&self.0, formatter)
            }
        }
    };
}

pub(crate) use flags;
