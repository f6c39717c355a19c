//! Keys and values of types other than `u64`, by a number for each.

use std::cmp::Reverse;
use std::net::Ipv4Addr;
use std::time::{Duration, SystemTime};

/// A type for the keys of a [`TypedMap`](crate::TypedMap): each of its values has a number of its own, and these numbers are in the
/// order of the values.
///
/// It is implemented for integers of up to 64 bits, `f32` and `f64` (in the order of `total_cmp`: `-0.0` and `0.0` are two keys, and a
/// NaN is a key by its bits), `char`, `bool`, `()`, arrays of up to 8 bytes, [`Ipv4Addr`], [`Duration`], [`SystemTime`] from 1970 on,
/// [`Reverse`], and pairs and triples whose parts have 64 bits together. An owned value such as a `String` has no such number: keep
/// it in a `Vec` or a slab, and its index in the map, or use its first 8 bytes as the key.
///
/// ```
/// use luskadorv::Key;
///
/// assert!((-1i32).encode() < 0i32.encode());
/// assert!((3u32, u32::MAX).encode() < (4u32, 0u32).encode());
/// assert_eq!(f64::decode((-1.5f64).encode()), -1.5);
/// ```
///
/// Who implements it for a type of their own sees to it that `a < b` is the same as `a.encode() < b.encode()`, and that `decode`
/// returns what was encoded.
pub trait Key: Copy {
    /// How many bits the numbers have, at most 64.
    const BITS: u32;

    /// Returns the number of this value, which is below 2^`BITS`.
    ///
    /// # Panics
    ///
    /// If this value of the type has no number: a [`Duration`] of 2^64 nanoseconds (584 years) or more, and a [`SystemTime`] before
    /// 1970 or as far after it.
    fn encode(self) -> u64;

    /// Returns the value with this number.
    ///
    /// # Panics
    ///
    /// If no value of the type has this number.
    fn decode(number: u64) -> Self;
}

/// A type for the values of a [`TypedMap`](crate::TypedMap): a copy of it fits 64 bits. Each [`Key`] is one.
///
/// ```
/// use luskadorv::Value;
///
/// #[derive(Clone, Copy, Debug, PartialEq)]
/// struct Slot(u32);
///
/// impl Value for Slot {
///     fn into_bits(self) -> u64 {
///         self.0.into()
///     }
///     fn from_bits(bits: u64) -> Slot {
///         Slot(bits as u32)
///     }
/// }
/// let map = luskadorv::TypedMap::new();
/// map.insert('a', Slot(5));
/// assert_eq!(map.get('a'), Some(Slot(5)));
/// ```
pub trait Value: Copy {
    /// Returns the value as 64 bits.
    fn into_bits(self) -> u64;

    /// Returns the value that has these bits.
    fn from_bits(bits: u64) -> Self;
}

impl<K: Key> Value for K {
    fn into_bits(self) -> u64 {
        self.encode()
    }

    fn from_bits(bits: u64) -> K {
        K::decode(bits)
    }
}

// The greatest number of so many bits.
const fn greatest(bits: u32) -> u64 {
    match bits {
        0 => 0,
        _ => u64::MAX >> (64 - bits),
    }
}

macro_rules! unsigned {
    ($($kind:ty)*) => {$(
        impl Key for $kind {
            const BITS: u32 = <$kind>::BITS;

            fn encode(self) -> u64 {
                self as u64
            }

            fn decode(number: u64) -> $kind {
                <$kind>::try_from(number).expect("the number is one of this type")
            }
        }
    )*};
}

unsigned!(u8 u16 u32 u64 usize);

// The sign's bit is turned, so that the negative numbers come first.
macro_rules! signed {
    ($($kind:ty as $bits:ty)*) => {$(
        impl Key for $kind {
            const BITS: u32 = <$kind>::BITS;

            fn encode(self) -> u64 {
                (self as $bits ^ <$kind>::MIN as $bits).encode()
            }

            fn decode(number: u64) -> $kind {
                (<$bits>::decode(number) ^ <$kind>::MIN as $bits) as $kind
            }
        }
    )*};
}

signed!(i8 as u8 i16 as u16 i32 as u32 i64 as u64 isize as usize);

// The bits of a positive float rise with it, and those of a negative one fall: there all bits are turned.
macro_rules! floats {
    ($($kind:ty as $bits:ty)*) => {$(
        impl Key for $kind {
            const BITS: u32 = <$bits>::BITS;

            fn encode(self) -> u64 {
                let (bits, sign) = (self.to_bits(), 1 << (<$bits>::BITS - 1));
                (if bits & sign == 0 { bits | sign } else { !bits }).encode()
            }

            fn decode(number: u64) -> $kind {
                let (bits, sign) = (<$bits>::decode(number), 1 << (<$bits>::BITS - 1));
                <$kind>::from_bits(if bits & sign == 0 { !bits } else { bits & !sign })
            }
        }
    )*};
}

floats!(f32 as u32 f64 as u64);

impl Key for char {
    const BITS: u32 = 21;

    fn encode(self) -> u64 {
        u32::from(self).encode()
    }

    fn decode(number: u64) -> char {
        char::from_u32(u32::decode(number)).expect("the number is one of a char")
    }
}

impl Key for bool {
    const BITS: u32 = 1;

    fn encode(self) -> u64 {
        self.into()
    }

    fn decode(number: u64) -> bool {
        assert!(number < 2, "the number is one of a bool");
        number == 1
    }
}

impl Key for () {
    const BITS: u32 = 0;

    fn encode(self) -> u64 {
        0
    }

    fn decode(_: u64) {}
}

// In the order of their bytes, the first byte first.
impl<const N: usize> Key for [u8; N] {
    const BITS: u32 = {
        assert!(N <= 8, "a key has at most 8 bytes");
        8 * N as u32
    };

    fn encode(self) -> u64 {
        let _ = Self::BITS;
        self.iter().fold(0, |number, byte| number << 8 | u64::from(*byte))
    }

    fn decode(number: u64) -> [u8; N] {
        let _ = Self::BITS;
        let bytes = number.to_be_bytes();
        std::array::from_fn(|at| bytes[8 - N + at])
    }
}

impl Key for Ipv4Addr {
    const BITS: u32 = 32;

    fn encode(self) -> u64 {
        self.to_bits().into()
    }

    fn decode(number: u64) -> Ipv4Addr {
        Ipv4Addr::from_bits(u32::decode(number))
    }
}

// In nanoseconds.
impl Key for Duration {
    const BITS: u32 = 64;

    fn encode(self) -> u64 {
        u64::try_from(self.as_nanos()).expect("a duration that is a key has less than 2^64 nanoseconds")
    }

    fn decode(number: u64) -> Duration {
        Duration::from_nanos(number)
    }
}

// In nanoseconds since the beginning of 1970.
impl Key for SystemTime {
    const BITS: u32 = 64;

    fn encode(self) -> u64 {
        self.duration_since(SystemTime::UNIX_EPOCH).expect("a time that is a key is not before 1970").encode()
    }

    fn decode(number: u64) -> SystemTime {
        SystemTime::UNIX_EPOCH + Duration::decode(number)
    }
}

impl<K: Key> Key for Reverse<K> {
    const BITS: u32 = K::BITS;

    fn encode(self) -> u64 {
        greatest(K::BITS) - self.0.encode()
    }

    fn decode(number: u64) -> Reverse<K> {
        Reverse(K::decode(greatest(K::BITS) - number))
    }
}

impl<A: Key, B: Key> Key for (A, B) {
    const BITS: u32 = {
        assert!(A::BITS + B::BITS <= 64, "the parts of a key have at most 64 bits together");
        A::BITS + B::BITS
    };

    fn encode(self) -> u64 {
        let _ = Self::BITS;
        self.0.encode().checked_shl(B::BITS).unwrap_or(0) | self.1.encode()
    }

    fn decode(number: u64) -> (A, B) {
        let _ = Self::BITS;
        (A::decode(number.checked_shr(B::BITS).unwrap_or(0)), B::decode(number & greatest(B::BITS)))
    }
}

impl<A: Key, B: Key, C: Key> Key for (A, B, C) {
    const BITS: u32 = <((A, B), C)>::BITS;

    fn encode(self) -> u64 {
        ((self.0, self.1), self.2).encode()
    }

    fn decode(number: u64) -> (A, B, C) {
        let ((a, b), c) = Key::decode(number);
        (a, b, c)
    }
}
