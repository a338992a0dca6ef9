//! Tuples of integers over the crate's own tuple macro, which judge kind 5: a part that is signed or reversed is one of the
//! tuple's own, and a key is packed high part first. Two whole words are kind 4's key too.

use crate::judge::{expected, Key};
use crate::streams::{number, words, Stream, Table};
use radix_heap::Radix;
use std::cmp::Reverse;

/// A part, with its code, from the low bits of a number and back.
pub trait Part: Radix + Ord + Copy {
    const CODE: u8;
    fn unpacked(number: u128) -> Self;
    fn packed(self) -> u128;
}

macro_rules! parts {
    ($($unsigned:ident $signed:ident)+) => {
        $(
            impl Part for $unsigned {
                const CODE: u8 = $unsigned::BITS as u8;
                fn unpacked(number: u128) -> Self {
                    number as $unsigned
                }
                fn packed(self) -> u128 {
                    self as u128
                }
            }

            impl Part for $signed {
                const CODE: u8 = $signed::BITS as u8 + 1;
                fn unpacked(number: u128) -> Self {
                    number as $signed
                }
                fn packed(self) -> u128 {
                    self as $unsigned as u128
                }
            }

            impl Part for Reverse<$unsigned> {
                const CODE: u8 = $unsigned::BITS as u8 + 2;
                fn unpacked(number: u128) -> Self {
                    Reverse(number as $unsigned)
                }
                fn packed(self) -> u128 {
                    self.0 as u128
                }
            }
        )+
    };
}

parts! { u8 i8 u16 i16 u32 i32 u64 i64 }

/// A key of two to four parts.
pub trait Tuple: Key {
    const TABLE: Table;
}

macro_rules! tuple {
    ($($part:ident $at:tt)+) => {
        impl<$($part: Part),+> Key for ($($part,)+) {
            fn from_words(first: u64, second: u64) -> Self {
                let (key, mut under) = (number(first, second), Self::RADIX_BITS);
                ($({
                    under -= $part::RADIX_BITS;
                    $part::unpacked(key >> under)
                },)+)
            }
            fn words(self) -> (u64, u64) {
                let mut key = 0;
                $(key = key << $part::RADIX_BITS | self.$at.packed();)+
                words(key)
            }
        }

        impl<$($part: Part),+> Tuple for ($($part,)+) {
            const TABLE: Table = {
                let mut table = [0; 4];
                $(table[$at] = $part::CODE;)+
                table
            };
        }
    };
}

tuple! { A 0 B 1 }
tuple! { A 0 B 1 C 2 }
tuple! { A 0 B 1 C 2 D 3 }

/// A table, and the answers that the crate gives to a stream with it.
pub struct Judge {
    pub table: Table,
    says: fn(&Stream) -> Vec<u8>,
}

const fn judge<T: Tuple>() -> Judge {
    Judge { table: T::TABLE, says: expected::<T> }
}

macro_rules! tables {
    ($($tuple:ty;)+) => {
        [$(judge::<$tuple>()),+]
    };
}

type R8 = Reverse<u8>;
type R16 = Reverse<u16>;
type R32 = Reverse<u32>;
type R64 = Reverse<u64>;

/// The tables that streams have. Among those of two parts each part has each width and sort, and so with three and with four.
pub const TABLES: &[Judge] = &tables! {
    (u32, u16, R8); // day, road and reversed priority
    (u8, u8);
    (i8, R16);
    (R8, u64);
    (u16, i64);
    (i16, R8);
    (R16, i32);
    (u32, R32);
    (i32, u16);
    (R32, i8);
    (u64, R64);
    (i64, u32);
    (R64, i16);
    (u64, u64);
    (u64, i32, R32);
    (i64, u16, u8);
    (R64, i8, u32);
    (u8, u64, i16);
    (i16, i64, R8);
    (R32, R64, i32);
    (u32, R8, u64);
    (i8, R16, i64);
    (R16, u32, R64);
    (R8, i16, u16);
    (u16, R32, i8);
    (i32, u8, R16);
    (u32, i16, R16);
    (i32, R32, u8);
    (u64, i32, u16, R16);
    (i64, R16, i32, R8);
    (R64, i8, u8, u32);
    (R32, i64, R8, u8);
    (i16, R64, R32, u16);
    (R8, u64, i16, R32);
    (u32, i16, R64, i16);
    (u8, R32, i64, i8);
    (R16, u16, u64, i32);
    (i32, u8, R16, u64);
    (u16, u32, i8, R64);
    (i8, R8, u32, i64);
    (u32, i32, R32, u32);
    (u16, i16, R16, u16);
    (R16, u32, i16, u8);
    (i8, u8, R8, i8);
};

/// The crate's answers to a stream of kind 5.
pub fn tuple_says(stream: &Stream) -> Vec<u8> {
    let judge = TABLES.iter().find(|judge| judge.table == stream.table);
    (judge.expect("a table of the list").says)(stream)
}
