//! As much of the flag macro as the original uses: a struct around a number, its constants, and five questions.
//!
//! The published macro's rules are kept: the known bits are those of all constants together, and `from_bits` refuses any other.

#[macro_export]
macro_rules! bitflags {
    (
        $(#[$meta:meta])*
        $vis:vis struct $name:ident: $number:ty {
            $(const $flag:ident = $value:expr;)*
        }
    ) => {
        $(#[$meta])*
        $vis struct $name($number);

        #[allow(dead_code)]
        impl $name {
            $(pub const $flag: Self = Self($value);)*

            pub const fn empty() -> Self {
                Self(0)
            }

            pub const fn all() -> Self {
                Self(0 $(| $value)*)
            }

            pub const fn bits(&self) -> $number {
                self.0
            }

            pub const fn from_bits(bits: $number) -> Option<Self> {
                if bits & !Self::all().0 == 0 {
                    Some(Self(bits))
                } else {
                    None
                }
            }

            pub const fn contains(&self, other: Self) -> bool {
                self.0 & other.0 == other.0
            }
        }
    };
}
