//! The crate as the judge: the answers that it gives to a stream.

use crate::floats::float_says;
use crate::streams::Stream;
use crate::tuples::tuple_says;
use radix_heap::{Radix, RadixHeapMap};
use std::cell::Cell;
use std::cmp::Reverse;
use std::panic::{catch_unwind, AssertUnwindSafe};

thread_local!(static MEASURED: Cell<u32> = const { Cell::new(0) });

/// A key that counts how often the crate measures it. Order and similarity are those of the key itself.
#[derive(Clone, Copy, PartialEq, Eq, PartialOrd, Ord)]
pub struct Counted<K>(pub K);

impl<K: Radix> Radix for Counted<K> {
    fn radix_similarity(&self, other: &Self) -> u32 {
        MEASURED.with(|m| m.set(m.get() + 1));
        self.0.radix_similarity(&other.0)
    }
    const RADIX_BITS: u32 = K::RADIX_BITS;
}

/// The kinds of key, from their words and back. Those of kinds 4 and 5 are tuples (`tuples`), those of kind 6 `floats`.
pub trait Key: Radix + Ord + Copy {
    fn from_words(first: u64, second: u64) -> Self;
    fn words(self) -> (u64, u64);
}

impl Key for u64 {
    fn from_words(first: u64, _: u64) -> Self {
        first
    }
    fn words(self) -> (u64, u64) {
        (self, 0)
    }
}

impl Key for i64 {
    fn from_words(first: u64, _: u64) -> Self {
        first as i64
    }
    fn words(self) -> (u64, u64) {
        (self as u64, 0)
    }
}

impl Key for Reverse<u64> {
    fn from_words(first: u64, _: u64) -> Self {
        Reverse(first)
    }
    fn words(self) -> (u64, u64) {
        (self.0, 0)
    }
}

impl<K: Key> Key for Counted<K> {
    fn from_words(first: u64, second: u64) -> Self {
        Counted(K::from_words(first, second))
    }
    fn words(self) -> (u64, u64) {
        self.0.words()
    }
}

pub fn measured<T>(work: impl FnOnce() -> T) -> (T, u32) {
    MEASURED.with(|m| m.set(0));
    let given = work();
    (given, MEASURED.with(|m| m.get()))
}

/// The answers that the crate gives.
pub fn expected<K: Key>(stream: &Stream) -> Vec<u8> {
    let mut heap: RadixHeapMap<Counted<K>, u64> = RadixHeapMap::new();
    let mut out = Vec::with_capacity(40 * stream.records.len());
    for r in &stream.records {
        let (mut code, mut present, mut moves, mut key, mut value) = (0u8, 0u8, 0u32, (0, 0), 0u64);
        if !r.formed(stream.kind, stream.table) {
            code = 5;
        } else if r.is_nan(stream.kind) {
            code = 9;
        } else {
            let k = Counted::<K>::from_words(r.key0, r.key1);
            match r.op {
                1 if heap.len() < stream.slots as usize => {
                    if catch_unwind(AssertUnwindSafe(|| heap.push(k, r.value))).is_err() {
                        code = 6;
                    }
                }
                1 => code = if heap.top().is_some_and(|top| k > top) { 6 } else { 7 },
                2 => match measured(|| heap.pop()) {
                    (Some((k, v)), m) => (present, moves, key, value) = (1, m, k.words(), v),
                    (None, _) => code = 8,
                },
                3 => moves = measured(|| heap.constrain()).1,
                4 => heap.clear(),
                5 => heap.clear_to(k),
                6 => {
                    if let Some(top) = heap.top() {
                        (present, key) = (1, top.words());
                    }
                }
                _ => {}
            }
        }
        out.extend_from_slice(&[code, present, 0, 0]);
        for number in [moves, heap.len() as u32, 0] {
            out.extend_from_slice(&number.to_le_bytes());
        }
        for word in [key.0, key.1, value] {
            out.extend_from_slice(&word.to_le_bytes());
        }
    }
    out
}

pub fn crate_says(stream: &Stream) -> Vec<u8> {
    match stream.kind {
        1 => expected::<u64>(stream),
        2 => expected::<i64>(stream),
        3 => expected::<Reverse<u64>>(stream),
        4 => expected::<(u64, u64)>(stream),
        6 => float_says(stream),
        _ => tuple_says(stream),
    }
}
