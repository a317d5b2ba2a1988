//! Our own stand-ins for the three crates that 000 uses, holding only what it uses of them.

/// bitflags: the struct with its constants, `bits`, and `FLAGS`, the constants in their order of declaration.
pub mod bitflags {
    macro_rules! flags {
        (
            $(#[$outer:meta])*
            pub struct $name:ident: $bits:ty {
                $($(#[$inner:meta])* const $flag:ident = $value:expr;)*
            }
        ) => {
            $(#[$outer])*
            pub struct $name($bits);

            impl $name {
                $($(#[$inner])* pub const $flag: Self = Self($value);)*
                pub const FLAGS: &'static [Self] = &[$(Self::$flag),*];

                pub const fn bits(&self) -> $bits {
                    self.0
                }
            }
        };
    }
    pub(crate) use flags as bitflags;
}

/// log: a line that nobody reads.
pub mod log {
    macro_rules! silent {
        ($($word:tt)*) => {
            let _ = format_args!($($word)*);
        };
    }
    pub(crate) use silent as warn;
}

/// winnow: readers from the front of a byte slice, which move it on where they succeed.
pub mod winnow {
    /// The one error: there are too few bytes.
    #[derive(Debug)]
    pub struct Short;

    /// What a reader answers.
    pub type ModalResult<O> = Result<O, Short>;

    /// A reader, and the reader that turns what it read into something else.
    pub trait Parser<'i, O>: Sized {
        fn parse_next(&mut self, input: &mut &'i [u8]) -> ModalResult<O>;

        fn map<P>(mut self, mut turn: impl FnMut(O) -> P) -> impl FnMut(&mut &'i [u8]) -> ModalResult<P> {
            move |input: &mut &'i [u8]| self.parse_next(input).map(&mut turn)
        }
    }

    /// A function is a reader.
    impl<'i, O, F: FnMut(&mut &'i [u8]) -> ModalResult<O>> Parser<'i, O> for F {
        fn parse_next(&mut self, input: &mut &'i [u8]) -> ModalResult<O> {
            self(input)
        }
    }

    /// Three readers, one after the other.
    impl<'i, A, B, C, P: Parser<'i, A>, Q: Parser<'i, B>, R: Parser<'i, C>> Parser<'i, (A, B, C)> for (P, Q, R) {
        fn parse_next(&mut self, input: &mut &'i [u8]) -> ModalResult<(A, B, C)> {
            Ok((self.0.parse_next(input)?, self.1.parse_next(input)?, self.2.parse_next(input)?))
        }
    }

    pub mod prelude {
        pub use super::{ModalResult, Parser};
    }

    pub mod token {
        use super::{ModalResult, Short};

        /// The next `count` bytes.
        pub fn take<'i>(count: usize) -> impl FnMut(&mut &'i [u8]) -> ModalResult<&'i [u8]> {
            move |input: &mut &'i [u8]| {
                let (front, rest) = input.split_at_checked(count).ok_or(Short)?;
                *input = rest;
                Ok(front)
            }
        }
    }

    pub mod binary {
        use super::{token::take, ModalResult};

        /// The next byte.
        pub fn u8(input: &mut &[u8]) -> ModalResult<u8> {
            take(1)(input).map(|byte| byte[0])
        }

        /// The next four bytes as a little-endian number.
        pub fn le_u32(input: &mut &[u8]) -> ModalResult<u32> {
            take(4)(input).map(|b| u32::from_le_bytes([b[0], b[1], b[2], b[3]]))
        }
    }
}
