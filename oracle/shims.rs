//! What the Rust's files use and do not bring along: no more than those names, and nothing of a header.

/// `open_enum!` of src/macros.rs, which is not in the folder: a one-number type with named constants that keeps every number.
macro_rules! open_enum {
    ($(#[$doc:meta])* pub enum $name:ident($number:ty) { $($value:ident = $n:expr),* $(,)? }) => {
        $(#[$doc])*
        #[derive(Debug, Hash, PartialEq, Eq, PartialOrd, Ord, Clone, Copy)]
        pub struct $name(pub $number);

        #[allow(non_upper_case_globals)]
        impl $name {
            $(#[allow(missing_docs)] pub const $value: Self = Self($n);)*
        }

        impl From<$number> for $name {
            fn from(n: $number) -> Self {
                Self(n)
            }
        }

        impl From<$name> for $number {
            fn from(value: $name) -> Self {
                value.0
            }
        }

        impl core::fmt::Display for $name {
            fn fmt(&self, f: &mut core::fmt::Formatter) -> core::fmt::Result {
                write!(f, "{}", self.0)
            }
        }
    };
}

/// `field` of src/wire/mod.rs, copied.
pub(crate) mod field {
    pub type Field = ::core::ops::Range<usize>;
}

/// `take` of src/wire/mod.rs, copied.
pub(crate) fn take<'a>(buf: &'a [u8], offset: &mut usize, n: usize) -> Result<&'a [u8], crate::error::Malformed> {
    let bytes = buf.get(*offset..*offset + n).ok_or(crate::error::Malformed)?;
    *offset += n;
    Ok(bytes)
}

/// The part of the crate byteorder that src/wire/ipv6.rs names. No command of the oracle comes to it.
pub trait ByteOrder {
    fn read_u16(buf: &[u8]) -> u16;
    fn read_u24(buf: &[u8]) -> u32;
    fn write_u16(buf: &mut [u8], n: u16);
    fn write_u24(buf: &mut [u8], n: u32);
}

pub struct NetworkEndian;

impl ByteOrder for NetworkEndian {
    fn read_u16(buf: &[u8]) -> u16 {
        u16::from_be_bytes([buf[0], buf[1]])
    }

    fn read_u24(buf: &[u8]) -> u32 {
        u32::from_be_bytes([0, buf[0], buf[1], buf[2]])
    }

    fn write_u16(buf: &mut [u8], n: u16) {
        buf[..2].copy_from_slice(&n.to_be_bytes());
    }

    fn write_u24(buf: &mut [u8], n: u32) {
        buf[..3].copy_from_slice(&n.to_be_bytes()[1..]);
    }
}
