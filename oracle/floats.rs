//! Floats over the crate's feature `ordered-float`, which judge kind 6, and the keys and streams of that kind.
//!
//! The crate compares the two zeros as equal and measures them 64 apart. Document 02 does not want that copied and leaves out
//! streams with both. So each stream may have one of the two, and where the other is drawn it becomes that one.

use crate::streams::{Dice, Record, Stream, NO_TABLE};

pub const PLUS_ZERO: u64 = 0;
/// The sign bit by itself.
pub const MINUS_ZERO: u64 = 1 << 63;
const INFINITY: u64 = 0x7ff << 52;
const ONE: u64 = 1023 << 52;

/// Patterns without their sign: zero and the smallest number, the greatest subnormal and the number after it, one and its
/// neighbours, the greatest number, infinity, and the first NaN.
const EDGES: [u64; 10] = [0, 1, (1 << 52) - 1, 1 << 52, ONE - 1, ONE, ONE + 1, INFINITY - 1, INFINITY, INFINITY + 1];

/// What NaNs have under infinity's bits: the first and the last of the signalling ones, and two first and the last of the quiet.
const PAYLOADS: [u64; 5] = [1, (1 << 51) - 1, 1 << 51, (1 << 51) + 1, (1 << 52) - 1];

/// 2 to the power of -1074, -1022, -3, 0 and 1014. Times whole numbers up to 2,048 they give subnormals, numbers, and infinities.
const SCALES: [u64; 5] = [1, 1 << 52, ONE - (3 << 52), ONE, ONE + (1014 << 52)];

/// What Rust says of these bits.
pub fn is_nan(key: u64) -> bool {
    f64::from_bits(key).is_nan()
}

fn sign(dice: &mut Dice) -> u64 {
    dice.of(&[0, MINUS_ZERO])
}

fn nan(dice: &mut Dice) -> u64 {
    let (listed, any) = (dice.of(&PAYLOADS), 1 + dice.below((1 << 52) - 1));
    sign(dice) | INFINITY | dice.of(&[listed, any])
}

/// How a stream's keys are drawn, and the one zero that it may have.
pub struct Floats {
    style: u64,
    zero: u64,
    few: [u64; 4],
    near: u64,
    scale: u64,
}

impl Floats {
    pub fn new(dice: &mut Dice) -> Self {
        let (style, zero, scale) = (dice.below(8), dice.of(&[PLUS_ZERO, MINUS_ZERO]), dice.of(&SCALES));
        let (edge, any) = (dice.of(&EDGES), dice.next() >> 1);
        let near = dice.of(&[edge, any]);
        let mut floats = Floats { style, zero, few: [zero; 4], near, scale };
        for i in 1..4 {
            floats.few[i] = floats.drawn(dice, 7, 0);
        }
        floats
    }

    /// One of a few numbers with the zero among them (many ties), a number that falls with the time and through zero, a neighbour
    /// of one pattern, an extreme, any pattern, any magnitude, or eighths; in style 7 another of these each time. Some are NaNs.
    fn drawn(&self, dice: &mut Dice, style: u64, time: u64) -> u64 {
        match style {
            0 => dice.of(&self.few),
            1 => {
                let whole = 2048 - (time % 4096) as i64 + dice.below(64) as i64;
                (whole as f64 * f64::from_bits(self.scale)).to_bits()
            }
            2 => sign(dice) | (self.near.saturating_sub(2) + dice.below(5)) & !MINUS_ZERO,
            3 => sign(dice) | dice.of(&EDGES),
            4 => dice.next(),
            5 => sign(dice) | dice.next() >> (1 + dice.below(63)),
            6 => ((dice.below(201) as f64 - 100.0) / 8.0).to_bits(),
            _ => {
                let style = dice.below(7);
                self.drawn(dice, style, time)
            }
        }
    }

    /// The stream's own zero in the place of the other.
    fn one_zero(&self, key: u64) -> u64 {
        if key & !MINUS_ZERO == 0 {
            return self.zero;
        }
        key
    }

    pub fn next(&self, dice: &mut Dice, time: u64) -> u64 {
        if dice.below(32) == 0 {
            return nan(dice);
        }
        let key = self.drawn(dice, self.style, time);
        self.one_zero(key)
    }

    /// The first word or a NaN, and a second word that the kind does not have.
    pub fn stray(&self, dice: &mut Dice, first: u64) -> (u64, u64) {
        let (none, any) = (nan(dice), dice.next() | 1);
        (dice.of(&[first, none]), dice.of(&[1, 1 << 63, any]))
    }
}

fn push(key0: u64, key1: u64, value: u64) -> Record {
    Record { op: 1, rest: 0, key0, key1, value }
}

fn bare(op: u8) -> Record {
    Record { op, rest: 0, key0: 0, key1: 0, value: 0 }
}

fn clear_to(key0: u64, key1: u64) -> Record {
    Record { key0, key1, ..bare(5) }
}

/// Each NaN of the list, pushed and cleared to, with a second word, with none, and with a value where none belongs: on a heap
/// with no top, on one with a top and room, and on a full one, which is as it was afterwards. And the infinities, which are taken.
pub fn each_nan() -> Stream {
    let mut records = Vec::new();
    for sign in [0, MINUS_ZERO] {
        for payload in PAYLOADS {
            let nan = sign | INFINITY | payload;
            let valued = Record { value: 1, ..clear_to(nan, 0) };
            let told = [push(nan, 1, 1), push(nan, 0, 2), clear_to(nan, 1), clear_to(nan, 0), valued];
            records.push(bare(4));
            records.extend(told);
            records.extend([clear_to(ONE, 0), push(ONE + 1, 0, 3)]);
            records.extend(told);
            records.extend([push(ONE, 0, 4), push(ONE, 0, 5), push(ONE + 1, 0, 6)]);
            records.extend(told);
            records.extend([bare(6), bare(2), bare(2)]);
        }
        let infinity = sign | INFINITY;
        records.extend([bare(4), push(infinity, 0, 7), push(infinity, 0, 8), bare(2), clear_to(infinity, 0), bare(6)]);
    }
    Stream { kind: 6, table: NO_TABLE, slots: 1, records }
}

/// A push of each lone bit below the sign and of each run of ones from either end, with both signs, and of a zero, in any order;
/// then as many pops.
pub fn each_pattern(dice: &mut Dice, slots: u32) -> Stream {
    let bits = |n: u32| [1 << n, !MINUS_ZERO >> n, !MINUS_ZERO & !0 << n];
    let both = |pattern: u64| [pattern, pattern | MINUS_ZERO];
    let mut keys: Vec<u64> = (0..63).flat_map(bits).flat_map(both).collect();
    keys.push(dice.of(&[PLUS_ZERO, MINUS_ZERO]));
    for i in (1..keys.len()).rev() {
        keys.swap(i, dice.below(i as u64 + 1) as usize);
    }
    let pops = [bare(2)].repeat(keys.len());
    let pushes = keys.iter().zip(0..).map(|(&key, value)| push(key, 0, value));
    Stream { kind: 6, table: NO_TABLE, slots, records: pushes.chain(pops).collect() }
}

/// A zero and its neighbours, twice each, with no top and at that zero as the top, where the neighbour above is refused.
pub fn around(zero: u64) -> Stream {
    let pushes = [MINUS_ZERO + 1, zero, 1, zero, MINUS_ZERO + 1, 1].map(|key| push(key, 0, key ^ zero));
    let mut records = pushes.to_vec();
    records.extend([bare(2)].repeat(7));
    records.push(clear_to(zero, 0));
    records.extend(pushes);
    records.push(bare(6));
    records.extend([bare(2)].repeat(5));
    Stream { kind: 6, table: NO_TABLE, slots: 16, records }
}

/// How many records of a stream have plus zero as their key, and how many minus zero.
pub fn zeros(stream: &Stream) -> [u64; 2] {
    let keys = || stream.records.iter().filter(|r| r.has_key() && r.formed(6, NO_TABLE)).map(|r| r.key0);
    [PLUS_ZERO, MINUS_ZERO].map(|zero| keys().filter(|&key| key == zero).count() as u64)
}

/// The crate is no judge of a stream with both.
pub fn has_both(stream: &Stream) -> bool {
    zeros(stream).iter().all(|&n| n > 0)
}

#[cfg(floats)]
mod judged {
    use crate::judge::{expected, Key};
    use crate::streams::Stream;
    use ordered_float::NotNan;

    pub type Float = NotNan<f64>;

    impl Key for Float {
        /// No NaN gets here: document 02 refuses it first.
        fn from_words(first: u64, _: u64) -> Self {
            NotNan::new(f64::from_bits(first)).expect("a number")
        }
        fn words(self) -> (u64, u64) {
            (self.into_inner().to_bits(), 0)
        }
    }

    /// The crate's answers to a stream of kind 6.
    pub fn float_says(stream: &Stream) -> Vec<u8> {
        expected::<Float>(stream)
    }
}

#[cfg(floats)]
pub use judged::*;

/// Without ordered-float the crate has no floats, and no stream of kind 6 is made.
#[cfg(not(floats))]
pub fn float_says(_: &Stream) -> Vec<u8> {
    unreachable!("a stream of kind 6")
}
