//! A sample of the crate's answers, written down so that a test of the port needs no Rust: the stored run of the program `replay`.

use crate::fail;
use crate::floats::{around, each_nan, each_pattern, has_both, MINUS_ZERO, PLUS_ZERO};
use crate::judge::crate_says;
use crate::streams::{each_bit, full, lone, stream, Dice, Stream, Table, NO_TABLE, SLOTS};
use crate::tuples::TABLES;
use std::path::Path;

/// The lengths of the four streams that each kind and number of slots get, and of those of kind 5, each with the next table, and
/// of kind 6.
const LENGTHS: [usize; 4] = [1, 5, 16, 50];
const SHORTER: [usize; 4] = [1, 4, 10, 16];

/// One pool is filled to the last slot for each of kinds 1 to 4; the smaller ones fill by themselves.
const FULL: [(u32, u32); 4] = [(1, 255), (2, 256), (3, 257), (4, 256)];

/// Day, road and reversed priority; and 128 bits, with a part that lies across both words.
const DESK: Table = [32, 16, 10, 0];
const WHOLE: Table = [18, 16, 64, 33];

/// A kind, a table or a number of slots that documents 01 and 02 refuse as a whole, with code 1. The fourth and the fifth are
/// kind 3 and 16 slots in their lower bytes.
const UNFIT: [(u32, Table, u32); 17] = [
    (0, NO_TABLE, 16),
    (5, NO_TABLE, 16),
    (3, NO_TABLE, 4097),
    (3 + (1 << 16), NO_TABLE, 16),
    (3, NO_TABLE, 16 + (1 << 24)),
    // one part
    (5, [64, 0, 0, 0], 16),
    // holes
    (5, [8, 0, 8, 0], 16),
    (5, [0, 8, 8, 0], 16),
    (5, [8, 8, 0, 8], 16),
    // widths of 24, 128 and 0, and no sort
    (5, [24, 8, 0, 0], 16),
    (5, [8, 128, 0, 0], 16),
    (5, [8, 8, 1, 0], 16),
    (5, [8, 8, 8, 11], 16),
    // 136 bits
    (5, [64, 64, 8, 0], 16),
    (5, [64, 32, 32, 8], 16),
    // a table in another kind
    (3, [32, 16, 10, 0], 16),
    (4, [0, 0, 0, 8], 16),
];

/// No kind, and kind 6 with a table and with too many slots: refused in the same way.
const UNFIT_FLOATS: [(u32, Table, u32); 3] = [(7, NO_TABLE, 16), (6, [64, 0, 0, 0], 16), (6, NO_TABLE, 4097)];

fn is_unfit(s: &Stream) -> bool {
    UNFIT.iter().chain(&UNFIT_FLOATS).any(|&unfit| unfit == (s.kind, s.table, s.slots))
}

/// Streams of kind 6, the refused ones among them. They come last, so that those before are what they were without them.
fn floats(dice: &mut Dice) -> Vec<Stream> {
    let mut all = Vec::new();
    for slots in SLOTS {
        all.extend(SHORTER.map(|length| stream(dice, 6, NO_TABLE, slots, length)));
    }
    all.extend([lone(6, NO_TABLE, 16), each_nan(), each_pattern(dice, 257), around(PLUS_ZERO), around(MINUS_ZERO)]);
    all.extend(UNFIT_FLOATS.map(|(kind, table, slots)| Stream { table, ..stream(dice, kind, NO_TABLE, slots, 1) }));
    all
}

fn streams(dice: &mut Dice) -> Vec<Stream> {
    let mut all = Vec::new();
    for kind in 1..=4 {
        for slots in SLOTS {
            all.extend(LENGTHS.map(|length| stream(dice, kind, NO_TABLE, slots, length)));
        }
    }
    all.extend(FULL.map(|(kind, slots)| full(dice, kind, slots, 12)));
    all.extend([3, 4].map(|kind| lone(kind, NO_TABLE, 16)));
    all.extend(UNFIT.map(|(kind, table, slots)| Stream { table, ..stream(dice, kind, NO_TABLE, slots, 1) }));
    let mut tables = TABLES.iter().map(|judge| judge.table).cycle();
    for slots in SLOTS {
        all.extend(SHORTER.map(|length| stream(dice, 5, tables.next().expect("a table"), slots, length)));
    }
    // the last has one slot less than it pushes
    all.extend([lone(5, DESK, 16), each_bit(DESK, 257, 56), each_bit(WHOLE, 127, 127)]);
    all.extend(floats(dice));
    all
}

/// Writes the streams to `stdin` and the crate's answers to `stdout` in this folder. The last stream is cut off, which is code 3.
pub fn record(folder: &Path, seed: u64) {
    let (mut input, mut output) = (Vec::new(), Vec::new());
    let mut dice = Dice(seed);
    let (mut records, mut codes) = (0, [0; 10]);
    let all = streams(&mut dice);
    for s in &all {
        let [kind, slots, length] = [s.kind, s.slots, s.records.len() as u32].map(u32::to_le_bytes);
        [kind, s.table, slots, length].iter().for_each(|four| input.extend_from_slice(four));
        s.bytes(&mut input);
        if is_unfit(s) {
            output.push(1);
            continue;
        }
        if s.kind == 6 && has_both(s) {
            fail("a stream has both zeros");
        }
        let says = crate_says(s);
        says.chunks(40).for_each(|a| codes[a[0] as usize] += 1);
        records += s.records.len();
        output.extend_from_slice(&says);
    }
    input.extend_from_slice(&[1, 0, 0, 0, 0, 0, 0, 0, 16, 0, 0, 0, 2, 0, 0, 0, 7]);
    output.push(3);
    for (name, bytes) in [("stdin", &input), ("stdout", &output)] {
        std::fs::write(folder.join(name), bytes).unwrap_or_else(|e| fail(&format!("{}: {e}", folder.join(name).display())));
    }
    let judged = all.iter().filter(|s| !is_unfit(s)).count();
    println!("seed {seed}: {records} records in {judged} streams, {} and {} bytes", input.len(), output.len());
    println!("answers by code: {codes:?}");
}
