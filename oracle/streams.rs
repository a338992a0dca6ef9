//! Streams of records, by dice.

use crate::floats::{is_nan, Floats};

/// splitmix64
#[derive(Clone)]
pub struct Dice(pub u64);

impl Dice {
    pub fn next(&mut self) -> u64 {
        self.0 = self.0.wrapping_add(0x9e37_79b9_7f4a_7c15);
        let mut z = self.0;
        z = (z ^ (z >> 30)).wrapping_mul(0xbf58_476d_1ce4_e5b9);
        z = (z ^ (z >> 27)).wrapping_mul(0x94d0_49bb_1331_11eb);
        z ^ (z >> 31)
    }
    pub fn below(&mut self, n: u64) -> u64 {
        self.next() % n
    }
    pub fn of<T: Copy>(&mut self, from: &[T]) -> T {
        from[self.below(from.len() as u64) as usize]
    }
}

/// `rest` is bytes 1 to 7.
#[derive(Clone, Copy)]
pub struct Record {
    pub op: u8,
    pub rest: u64,
    pub key0: u64,
    pub key1: u64,
    pub value: u64,
}

impl Record {
    pub fn bytes(&self, out: &mut Vec<u8>) {
        for word in [self.op as u64 | self.rest << 8, self.key0, self.key1, self.value] {
            out.extend_from_slice(&word.to_le_bytes());
        }
    }

    /// A push or a clear_to.
    pub fn has_key(&self) -> bool {
        matches!(self.op, 1 | 5)
    }

    /// Document 02: in kind 6 a key that is a NaN is refused, if the record is well-formed.
    pub fn is_nan(&self, kind: u32) -> bool {
        kind == 6 && self.has_key() && is_nan(self.key0)
    }

    /// Document 01: known operation, unused fields zero, the second word zero in kinds 1 to 3. Document 02: in kind 5 no bit
    /// above the parts' total, and in kind 6 the second word as in kinds 1 to 3.
    #[inline]
    pub fn formed(&self, kind: u32, table: Table) -> bool {
        let proper = match kind {
            4 => true,
            5 => number(self.key0, self.key1).leading_zeros() >= 128 - total(table),
            _ => self.key1 == 0,
        };
        self.rest == 0
            && match self.op {
                1 => proper,
                5 => proper && self.value == 0,
                2 | 3 | 4 | 6 | 7 => self.key0 == 0 && self.key1 == 0 && self.value == 0,
                _ => false,
            }
    }
}

/// The codes of a mixed key's parts, high part first: a part's bits, plus 0 unsigned, 1 signed, 2 reversed; 0 for no part.
pub type Table = [u8; 4];

/// The table of every kind but 5.
pub const NO_TABLE: Table = [0; 4];

/// How many bits the part with this code has.
fn bits(code: u8) -> u32 {
    code as u32 / 8 * 8
}

#[inline]
fn total(table: Table) -> u32 {
    table.iter().map(|&code| bits(code)).sum()
}

/// The number that two words are, and the words of a number.
pub fn number(first: u64, second: u64) -> u128 {
    (first as u128) << 64 | second as u128
}

pub fn words(number: u128) -> (u64, u64) {
    ((number >> 64) as u64, number as u64)
}

/// A stream: a fresh heap of a kind with so many slots, and the records that it is given.
#[derive(Clone)]
pub struct Stream {
    pub kind: u32,
    pub table: Table,
    pub slots: u32,
    pub records: Vec<Record>,
}

impl Stream {
    pub fn bytes(&self, out: &mut Vec<u8>) {
        self.records.iter().for_each(|r| r.bytes(out));
    }
}

pub const SLOTS: [u32; 10] = [0, 1, 2, 3, 16, 255, 256, 257, 4095, 4096];
const EDGES: [u64; 8] = [0, 1, u64::MAX, u64::MAX - 1, 1 << 63, (1 << 63) - 1, (1 << 63) + 1, 1 << 32];

/// A word of a key: a narrow range (many ties), a drifting time, any word, or an extreme.
fn word(dice: &mut Dice, style: u64, time: u64) -> u64 {
    match style {
        0 => dice.below(4),
        1 => time.wrapping_add(dice.below(64)),
        2 => dice.next(),
        3 => dice.of(&EDGES),
        _ => dice.next() >> dice.below(64),
    }
}

/// A part of so many bits: a narrow range (many ties), a time that rises or falls, any number, an extreme, or any magnitude.
fn part(dice: &mut Dice, bits: u32, style: u64, time: u64) -> u64 {
    let (greatest, sign) = (u64::MAX >> (64 - bits), 1 << (bits - 1));
    greatest
        & match style {
            0 => dice.below(4),
            1 => time.wrapping_add(dice.below(64)),
            2 => time.wrapping_add(dice.below(64)).wrapping_neg(),
            3 => dice.next(),
            4 => dice.of(&[0, 1, greatest, greatest - 1, sign, sign - 1, sign + 1, 1 << (bits / 2)]),
            _ => (greatest & dice.next()) >> dice.below(bits as u64),
        }
}

/// How a stream's keys are drawn: by words, or part by part in a style for each place, which may be another one each time, or as
/// floats.
enum Keys {
    Words { kind: u32, style: u64 },
    Parts { table: Table, styles: [u64; 4] },
    Floats(Floats),
}

impl Keys {
    fn new(dice: &mut Dice, kind: u32, table: Table) -> Self {
        if kind == 6 {
            return Keys::Floats(Floats::new(dice));
        }
        if table == NO_TABLE {
            return Keys::Words { kind, style: dice.below(5) };
        }
        Keys::Parts { table, styles: [(); 4].map(|_| dice.below(7)) }
    }

    fn next(&self, dice: &mut Dice, time: u64) -> (u64, u64) {
        match self {
            &Keys::Words { kind, style } => {
                let first = word(dice, style, time);
                let second = dice.below(5);
                (first, if kind == 4 { word(dice, second, time) } else { 0 })
            }
            &Keys::Parts { table, styles } => packed(dice, table, styles, time),
            Keys::Floats(floats) => (floats.next(dice, time), 0),
        }
    }

    /// A key that its kind does not have, if there is one: the second word not zero, or a bit above the parts' total.
    fn stray(&self, dice: &mut Dice, (first, second): (u64, u64)) -> (u64, u64) {
        match self {
            &Keys::Parts { table, .. } if total(table) < 128 => {
                let above = 128 - total(table);
                let any = dice.below(above as u64) as u32;
                let bit = 1 << (127 - dice.of(&[above - 1, above - 1, any, 0]));
                words(bit | dice.of(&[0, number(first, second)]))
            }
            Keys::Floats(floats) => floats.stray(dice, first),
            _ => (first, 1),
        }
    }
}

/// A mixed key, packed high part first.
fn packed(dice: &mut Dice, table: Table, styles: [u64; 4], time: u64) -> (u64, u64) {
    let mut key = 0;
    for (&code, style) in table.iter().zip(styles).filter(|(code, _)| **code != 0) {
        let style = if style == 6 { dice.below(6) } else { style };
        key = key << bits(code) | part(dice, bits(code), style, time) as u128;
    }
    words(key)
}

/// A stream of records of every sort, on a fresh heap.
pub fn stream(dice: &mut Dice, kind: u32, table: Table, slots: u32, length: usize) -> Stream {
    let keys = Keys::new(dice, kind, table);
    let pushes = dice.of(&[35, 50, 65, 80]);
    let mut time = dice.below(1 << 20);
    let mut records = Vec::with_capacity(length);
    for _ in 0..length {
        time += dice.below(3);
        let (key0, key1) = keys.next(dice, time);
        let value = dice.next() >> dice.below(64);
        let bare = |op| Record { op, rest: 0, key0: 0, key1: 0, value: 0 };
        let keyed = |op, (key0, key1), value| Record { op, rest: 0, key0, key1, value };
        let roll = dice.below(100);
        records.push(if roll < pushes {
            keyed(1, (key0, key1), value)
        } else if roll < 92 {
            bare(2)
        } else {
            match dice.below(16) {
                0 | 1 => bare(3),
                2 => bare(4),
                3 => keyed(5, (key0, key1), 0),
                4 | 5 => bare(6),
                6 | 7 => bare(7),
                8 => keyed(1, keys.stray(dice, (key0, key1)), value),
                9 => Record { value: 1, ..bare(dice.of(&[2, 3, 4, 6, 7])) },
                10 => Record { key0: key0 | 1, ..bare(dice.of(&[2, 3, 4, 6, 7])) },
                11 => Record { key1: 1, ..bare(dice.of(&[2, 3, 4, 6, 7])) },
                12 => Record { rest: 1 << (8 * (value % 7)), ..bare(dice.of(&[2, 3, 6, 7])) },
                13 => bare(dice.of(&[0, 8, 9, 128, 255])),
                14 => keyed(5, (key0, key1), 1),
                _ => keyed(5, keys.stray(dice, (key0, key1)), 0),
            }
        });
    }
    Stream { kind, table, slots, records }
}

/// Pushes until the pool is full, one more, and then `more` records of every sort. For kinds 1 to 4.
pub fn full(dice: &mut Dice, kind: u32, slots: u32, more: usize) -> Stream {
    let style = dice.below(5);
    let time = dice.below(1 << 20);
    let mut s = stream(dice, kind, NO_TABLE, slots, more);
    let pushes = (0..=slots as u64).map(|i| {
        let key1 = if kind == 4 { word(dice, style, time) } else { 0 };
        Record { op: 1, rest: 0, key0: word(dice, style, time + i), key1, value: i }
    });
    s.records.splice(0..0, pushes);
    s
}

/// Every operation with a lone 1 in each of bytes 1 to 7, and in each word.
pub fn lone(kind: u32, table: Table, slots: u32) -> Stream {
    let mut records = Vec::new();
    for op in 1..=7 {
        let zero = Record { op, rest: 0, key0: 0, key1: 0, value: 0 };
        records.extend((0..7).map(|byte| Record { rest: 1 << (8 * byte), ..zero }));
        records.extend([Record { key0: 1, ..zero }, Record { key1: 1, ..zero }, Record { value: 1, ..zero }]);
    }
    Stream { kind, table, slots, records }
}

/// For kind 5: a push of each lone bit of the two words, those above the total too, and then so many pops.
pub fn each_bit(table: Table, slots: u32, pops: usize) -> Stream {
    let mut records = Vec::new();
    for bit in 0..128 {
        let (key0, key1) = words(1 << bit);
        records.push(Record { op: 1, rest: 0, key0, key1, value: bit });
    }
    records.extend([Record { op: 2, rest: 0, key0: 0, key1: 0, value: 0 }].repeat(pops));
    Stream { kind: 5, table, slots, records }
}
