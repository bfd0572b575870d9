/// An enum over the numbers of an enum of include/adf.h. A number that this crate does not know is `Unknown`, and never stands for
/// one that it knows.
macro_rules! numbered {
    ($(#[$about:meta])* $name:ident($number:ty): $($(#[$says:meta])* $variant:ident = $value:literal,)*) => {
        $(#[$about])*
        #[allow(missing_docs)] // a variant has the name of its number in include/adf.h, which says what it means
        #[derive(Clone, Copy, Debug, PartialEq, Eq, Hash)]
        #[non_exhaustive]
        pub enum $name {
            $($(#[$says])* $variant,)*
            /// A number that this crate does not know: the library is newer than the crate.
            Unknown($number),
        }

        impl $name {
            /// All that this crate knows, in the order of their numbers.
            pub const ALL: &'static [$name] = &[$($name::$variant,)*];

            /// The number in include/adf.h.
            pub fn number(self) -> $number {
                match self {
                    $($name::$variant => $value,)*
                    $name::Unknown(number) => number,
                }
            }
        }

        impl From<$number> for $name {
            fn from(number: $number) -> $name {
                match number {
                    $($value => $name::$variant,)*
                    _ => $name::Unknown(number),
                }
            }
        }
    };
}

pub(crate) use numbered;
