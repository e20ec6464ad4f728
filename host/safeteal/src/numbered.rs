//! Enums whose variants are numbers of the C interface.

/// Declares one, with the list of all its variants and its number as `$kind`. Where each variant has its words behind
/// the number, these are what is displayed. The numbers ascend; there may be gaps.
macro_rules! numbered {
    ($(#[$about:meta])* pub enum $name:ident: $kind:ty {
        $($(#[$of:meta])* $variant:ident = $number:literal => $words:literal,)*
    }) => {
        numbered! {
            $(#[$about])*
            pub enum $name: $kind {
                $($(#[$of])* $variant = $number,)*
            }
        }

        impl std::fmt::Display for $name {
            fn fmt(&self, f: &mut std::fmt::Formatter<'_>) -> std::fmt::Result {
                f.pad(match self {
                    $(Self::$variant => $words,)*
                })
            }
        }
    };
    ($(#[$about:meta])* pub enum $name:ident: $kind:ty {
        $($(#[$of:meta])* $variant:ident = $number:literal,)*
    }) => {
        $(#[$about])*
        #[derive(Clone, Copy, Debug, PartialEq, Eq, Hash)]
        pub enum $name {
            $($(#[$of])* $variant = $number,)*
        }

        impl $name {
            /// All of them, in the order of their numbers.
            pub const ALL: &'static [Self] = &[$(Self::$variant),*];

            /// Its number.
            #[must_use]
            pub const fn number(self) -> $kind {
                self as $kind
            }

            /// The one of that number.
            #[must_use]
            pub fn of_number(number: $kind) -> Option<Self> {
                Self::ALL.iter().copied().find(|one| one.number() == number)
            }
        }
    };
}
