//! Times the crate and the port's batch on the same records, and the port's examination by itself.
//!
//! Both sides read records of 32 bytes and write answers of 40. The clock rises by one with each record, and a push is due
//! at the clock plus a number below 1,000; `Form` says how that time is written as a key. First every byte of the
//! answers of both is compared, the moves too; then passes over all batches are timed batch by batch, the crate's and the port's in
//! turn, and their answers held against the first ones. Last the port alone on a small pool, one record at a time. Where the crate
//! has no floats, the port is alone in kind 6.

#[allow(dead_code)]
mod floats;
#[allow(dead_code)]
mod judge;
mod port;
#[allow(dead_code)]
mod streams;
#[allow(dead_code)]
mod tuples;

use judge::{measured, Counted, Key};
use port::Port;
use radix_heap::RadixHeapMap;
use std::cmp::Reverse;
use std::time::{Duration, Instant};
use streams::{Dice, Record, Table, NO_TABLE};
use tuples::Tuple;

const SLOTS: usize = 4096;
const BATCHES: usize = 1000;
const RECORDS: usize = 4000;
const PASSES: usize = 11;

/// The small pool of records that are served one at a time.
const FEW_SLOTS: usize = 16;
const FEW_HELD: usize = 8;
const SINGLES: usize = 200_000;

/// In what order a batch's pushes and pops come, and how many entries there are before the first batch.
#[derive(Clone, Copy)]
struct Shape {
    name: &'static str,
    held: usize,
    pushes: fn(usize) -> bool,
}

const SHAPES: [Shape; 2] = [
    Shape { name: "in blocks", held: 0, pushes: |i| i < RECORDS / 2 },
    Shape { name: "interleaved", held: 1000, pushes: |i| i % 2 == 0 },
];

/// How a release time is written as a key. In each form the earliest time is the greatest key, so that the pops of a shape
/// give the same values with the same moves.
#[derive(Clone, Copy)]
struct Form {
    name: &'static str,
    words: fn(u64) -> (u64, u64),
}

const TIME: Form = Form { name: "kind 3", words: |due| (due, 0) };
const PAIR_BY_FIRST: Form = Form { name: "kind 4, different first words", words: |due| (u64::MAX - due, 0) };
const PAIR_BY_SECOND: Form = Form { name: "kind 4, equal first words", words: |due| (0, u64::MAX - due) };
/// The low byte is the reversed priority, the rest road and day.
const DESK: Form = Form { name: "kind 5, day, road and reversed priority", words: |due| (0, (!due ^ 255) & (u64::MAX >> 8)) };

/// About half of the batches have positive numbers, the others negative ones, and one or two have both.
const FLOAT: Form = Form { name: "kind 6, from positive to negative", words: |due| (falling(due), 0) };

/// A number above 1 that falls to it, and after the turn one below -1 that falls from it, with the time's bits in the fraction.
fn falling(due: u64) -> u64 {
    let (one, turn) = (1f64.to_bits(), 1 << 21);
    if due < turn {
        return one | (due ^ (turn - 1)) << 24;
    }
    1 << 63 | one | due << 24
}

/// The batches of a shape, one after the other; the first has the entries that are held before.
#[derive(Clone)]
struct Batches {
    shape: Shape,
    form: Form,
    dice: Dice,
    clock: u64,
    made: usize,
}

impl Batches {
    fn new(shape: Shape, form: Form) -> Self {
        Batches { shape, form, dice: Dice(1), clock: 0, made: 0 }
    }

    fn next(&mut self, out: &mut Vec<u8>) {
        out.clear();
        let length = if self.made == 0 { self.shape.held } else { RECORDS };
        for i in 0..length {
            self.clock += 1;
            if self.made == 0 || (self.shape.pushes)(i) {
                let (key0, key1) = (self.form.words)(self.clock + self.dice.below(1000));
                Record { op: 1, rest: 0, key0, key1, value: self.dice.next() }.bytes(out);
            } else {
                Record { op: 2, rest: 0, key0: 0, key1: 0, value: 0 }.bytes(out);
            }
        }
        self.made += 1;
    }
}

/// The kind of a key, as the port is told it.
trait Kinded {
    const KIND: u32;
    const TABLE: Table = NO_TABLE;
}

/// A key of the crate that may tell how many moves there were. As a user of the crate has it, nothing is counted.
trait Timed: Key + Kinded {
    fn moves<T>(work: impl FnOnce() -> T) -> (T, u32) {
        (work(), 0)
    }
}

impl Kinded for Reverse<u64> {
    const KIND: u32 = 3;
}

impl Kinded for (u64, u64) {
    const KIND: u32 = 4;
}

impl Kinded for (u32, u16, Reverse<u8>) {
    const KIND: u32 = 5;
    const TABLE: Table = <Self as Tuple>::TABLE;
}

/// Kind 6, which need not be a key of the crate.
#[cfg(floats)]
type Float = floats::Float;
#[cfg(not(floats))]
struct Float;

impl Kinded for Float {
    const KIND: u32 = 6;
}

impl<K: Kinded> Kinded for Counted<K> {
    const KIND: u32 = K::KIND;
    const TABLE: Table = K::TABLE;
}

impl Timed for Reverse<u64> {}
impl Timed for (u64, u64) {}
impl Timed for (u32, u16, Reverse<u8>) {}
#[cfg(floats)]
impl Timed for Float {}

impl<K: Timed> Timed for Counted<K> {
    fn moves<T>(work: impl FnOnce() -> T) -> (T, u32) {
        measured(work)
    }
}

/// The record in 32 bytes.
fn read(bytes: &[u8]) -> Record {
    let word = |at: usize| u64::from_le_bytes(bytes[at..at + 8].try_into().expect("eight bytes"));
    Record { op: bytes[0], rest: word(0) >> 8, key0: word(8), key1: word(16), value: word(24) }
}

/// One record on the crate's heap: code, whether a key follows, moves, key and value. The batches have no late push, so the
/// panic need not be caught: the key is compared with the top first.
fn served<K: Timed>(heap: &mut RadixHeapMap<K, u64>, r: &Record) -> (u8, u8, u32, (u64, u64), u64) {
    let bare = |code, moves| (code, 0, moves, (0, 0), 0);
    let key = K::from_words(r.key0, r.key1);
    match r.op {
        _ if !r.formed(K::KIND, K::TABLE) => bare(5, 0),
        1 if heap.top().is_some_and(|top| key > top) => bare(6, 0),
        1 if heap.len() == SLOTS => bare(7, 0),
        1 => {
            heap.push(key, r.value);
            bare(0, 0)
        }
        2 => match K::moves(|| heap.pop()) {
            (Some((k, v)), moves) => (0, 1, moves, k.words(), v),
            (None, _) => bare(8, 0),
        },
        3 => bare(0, K::moves(|| heap.constrain()).1),
        4 => {
            heap.clear();
            bare(0, 0)
        }
        5 => {
            heap.clear_to(key);
            bare(0, 0)
        }
        6 => heap.top().map_or(bare(0, 0), |top| (0, 1, 0, top.words(), 0)),
        _ => bare(0, 0),
    }
}

/// A batch by the crate: records in, answers out.
fn by_crate<K: Timed>(heap: &mut RadixHeapMap<K, u64>, records: &[u8], answers: &mut [u8]) {
    for (r, a) in records.chunks_exact(32).zip(answers.chunks_exact_mut(40)) {
        let (code, present, moves, (key0, key1), value) = served(heap, &read(r));
        let head = code as u64 | (present as u64) << 8 | (moves as u64) << 32;
        a[0..8].copy_from_slice(&head.to_le_bytes());
        a[8..16].copy_from_slice(&(heap.len() as u64).to_le_bytes());
        a[16..24].copy_from_slice(&key0.to_le_bytes());
        a[24..32].copy_from_slice(&key1.to_le_bytes());
        a[32..40].copy_from_slice(&value.to_le_bytes());
    }
}

/// A number for words, in their order.
fn digest(words: impl Iterator<Item = u64>) -> u64 {
    words.fold(0u64, |sum, w| (sum ^ w).wrapping_mul(0x9e37_79b9_7f4a_7c15).rotate_left(23))
}

fn words(bytes: &[u8]) -> impl Iterator<Item = u64> + '_ {
    bytes.chunks_exact(8).map(|w| u64::from_le_bytes(w.try_into().expect("eight bytes")))
}

/// The answers without their moves, which the crate does not tell.
fn told(answers: &[u8]) -> u64 {
    digest(words(answers).enumerate().map(|(i, w)| if i % 5 == 0 { w & 0xffff_ffff } else { w }))
}

/// The answers without their keys, which are the same in every form.
fn formless(answers: &[u8]) -> u64 {
    digest(words(answers).enumerate().map(|(i, w)| if i % 5 == 2 || i % 5 == 3 { 0 } else { w }))
}

/// What each batch is told, and the whole without its keys, after every byte of both sides' answers was compared. Says the
/// moves too.
fn compared<K: Timed>(mut batches: Batches) -> (Vec<u64>, u64) {
    let mut heap: RadixHeapMap<Counted<K>, u64> = RadixHeapMap::new();
    let mut port = Port::new(K::KIND, K::TABLE, SLOTS);
    let (mut records, mut each, mut whole) = (Vec::new(), Vec::new(), 0);
    let (mut a, mut b) = (vec![0; 40 * RECORDS], vec![0; 40 * RECORDS]);
    let mut moves = 0;
    for i in 0..=BATCHES {
        batches.next(&mut records);
        let n = 40 * (records.len() / 32);
        by_crate(&mut heap, &records, &mut a[..n]);
        port.batch(&records, &mut b[..n]);
        assert!(a[..n] == b[..n], "the answers differ in batch {i}");
        port.words_are_right();
        assert!(a[..n].chunks(40).all(|answer| answer[0] == 0), "a record was refused in batch {i}");
        moves += words(&a[..n]).step_by(5).map(|w| w >> 32).sum::<u64>();
        each.push(told(&a[..n]));
        whole = digest([whole, formless(&a[..n])].into_iter());
    }
    let pops = (BATCHES * RECORDS / 2) as f64;
    println!("{}, {}: every byte of the answers equal, none refused, {:.2} moves for each pop", batches.form.name, batches.shape.name, moves as f64 / pops);
    (each, whole)
}

/// How long each batch takes: making the records and looking at the answers is not timed, nor is the first batch.
fn pass(mut batches: Batches, expected: &[u64], mut work: impl FnMut(&[u8], &mut [u8])) -> Vec<Duration> {
    let (mut records, mut times) = (Vec::new(), Vec::new());
    let mut answers = vec![0; 40 * RECORDS];
    for (i, expected) in expected.iter().enumerate() {
        batches.next(&mut records);
        let n = 40 * (records.len() / 32);
        let start = Instant::now();
        work(&records, &mut answers[..n]);
        if i > 0 {
            times.push(start.elapsed());
        }
        assert!(told(&answers[..n]) == *expected, "the answers differ in batch {i}");
    }
    times
}

fn crate_pass<K: Timed>(batches: Batches, expected: &[u64]) -> Vec<Duration> {
    let mut heap: RadixHeapMap<K, u64> = RadixHeapMap::new();
    pass(batches, expected, |records, answers| by_crate(&mut heap, records, answers))
}

fn port_pass<K: Kinded>(batches: Batches, expected: &[u64]) -> Vec<Duration> {
    let mut port = Port::new(K::KIND, K::TABLE, SLOTS);
    pass(batches, expected, |records, answers| port.batch(records, answers))
}

/// The examination by itself, on the pool as each batch finds it.
fn examination_pass<K: Kinded>(batches: Batches, expected: &[u64]) -> Vec<Duration> {
    let (mut port, mut times) = (Port::new(K::KIND, K::TABLE, SLOTS), Vec::new());
    pass(batches, expected, |records, answers| {
        let start = Instant::now();
        port.examine();
        if records.len() == 32 * RECORDS {
            times.push(start.elapsed());
        }
        port.batch(records, answers);
    });
    times
}

/// Best, median and worst.
fn spread(mut times: Vec<f64>) -> [f64; 3] {
    times.sort_by(f64::total_cmp);
    [times[0], times[times.len() / 2], times[times.len() - 1]]
}

/// Nanoseconds for each record, over passes of the same batches: with the least time that each batch took, and for the whole
/// passes the best, the median and the worst.
struct Times {
    least: f64,
    passes: [f64; 3],
}

impl Times {
    fn new(passes: &[Vec<Duration>], records: usize) -> Self {
        let each = |d: Duration| d.as_nanos() as f64 / records as f64;
        let least = (0..passes[0].len()).map(|b| passes.iter().map(|p| p[b]).min().expect("a pass")).sum();
        Times { least: each(least), passes: spread(passes.iter().map(|p| each(p.iter().sum())).collect()) }
    }

    fn print(&self, what: &str) {
        let [best, median, worst] = self.passes;
        println!("  {what:<12} least {:6.2}, median {median:6.2} ({best:.2} to {worst:.2})", self.least);
    }
}

/// Times both on the batches of a shape, with keys of a form. Gives the number of the answers without their keys.
fn timed<K: Timed>(shape: Shape, form: Form) -> u64 {
    let batches = Batches::new(shape, form);
    let (expected, whole) = compared::<K>(batches.clone());
    let (mut c, mut p, mut e) = (Vec::new(), Vec::new(), Vec::new());
    for _ in 0..PASSES {
        c.push(crate_pass::<K>(batches.clone(), &expected));
        p.push(port_pass::<K>(batches.clone(), &expected));
        e.push(examination_pass::<K>(batches.clone(), &expected));
    }
    let total = |times: &[Duration]| times.iter().sum::<Duration>().as_secs_f64();
    let ratios = spread(c.iter().zip(&p).map(|(c, p)| total(p) / total(c)).collect());
    let [c, p, e] = [c, p, e].map(|passes| Times::new(&passes, BATCHES * RECORDS));
    for (what, times) in [("crate", &c), ("port", &p), ("examination", &e)] {
        times.print(what);
    }
    println!("  ratio        least {:6.2}, median {:6.2} ({:.2} to {:.2})", p.least / c.least, ratios[1], ratios[0], ratios[2]);
    println!("  examination's share of the port's least time, percent: {:.1}", 100.0 * e.least / p.least);
    whole
}

/// Kind 6 beside the crate.
#[cfg(floats)]
fn timed_floats(shape: Shape) -> u64 {
    timed::<Float>(shape, FLOAT)
}

/// Kind 6 where the crate has no floats: the port's answers are held against its first ones.
#[cfg(not(floats))]
fn timed_floats(shape: Shape) -> u64 {
    let batches = Batches::new(shape, FLOAT);
    let (expected, whole) = alone::<Float>(batches.clone());
    println!("{}, {}: the port alone", FLOAT.name, shape.name);
    let (mut p, mut e) = (Vec::new(), Vec::new());
    for _ in 0..PASSES {
        p.push(port_pass::<Float>(batches.clone(), &expected));
        e.push(examination_pass::<Float>(batches.clone(), &expected));
    }
    for (what, passes) in [("port", p), ("examination", e)] {
        Times::new(&passes, BATCHES * RECORDS).print(what);
    }
    whole
}

/// What the port tells each batch, and the whole without its keys.
#[cfg(not(floats))]
fn alone<K: Kinded>(mut batches: Batches) -> (Vec<u64>, u64) {
    let mut port = Port::new(K::KIND, K::TABLE, SLOTS);
    let (mut records, mut each, mut whole) = (Vec::new(), Vec::new(), 0);
    let mut answers = vec![0; 40 * RECORDS];
    for _ in 0..=BATCHES {
        batches.next(&mut records);
        let n = 40 * (records.len() / 32);
        port.batch(&records, &mut answers[..n]);
        port.words_are_right();
        each.push(told(&answers[..n]));
        whole = digest([whole, formless(&answers[..n])].into_iter());
    }
    (each, whole)
}

/// A push of each second record, due later than every one before, and a pop; before them pushes for what is held.
fn one_after_the_other(form: Form) -> Vec<u8> {
    let (mut dice, mut out) = (Dice(1), Vec::new());
    for i in 0..FEW_HELD + SINGLES {
        if i < FEW_HELD || (i - FEW_HELD) % 2 == 0 {
            let (key0, key1) = (form.words)(1000 * i as u64 + dice.below(1000));
            Record { op: 1, rest: 0, key0, key1, value: dice.next() }.bytes(&mut out);
        } else {
            Record { op: 2, rest: 0, key0: 0, key1: 0, value: 0 }.bytes(&mut out);
        }
    }
    out
}

/// Records served one at a time on a small pool: each is a batch of its own, so that the pool is examined for it, as it is
/// for a single call. And the examination of that pool by itself.
fn singles<K: Kinded>(form: Form) {
    let records = one_after_the_other(form);
    let (first, records) = records.split_at(32 * FEW_HELD);
    let (mut served, mut examined) = (Vec::new(), Vec::new());
    let mut answers = [0; 40 * FEW_HELD];
    for _ in 0..PASSES {
        let mut port = Port::new(K::KIND, K::TABLE, FEW_SLOTS);
        port.batch(first, &mut answers);
        served.push(records.chunks_exact(32 * RECORDS).map(|some| clocked(|| one_at_a_time(&mut port, some))).collect::<Vec<_>>());
        examined.push((0..SINGLES / RECORDS).map(|_| clocked(|| (0..RECORDS).for_each(|_| port.examine()))).collect::<Vec<_>>());
    }
    println!("{}, one record at a time on {FEW_SLOTS} slots", form.name);
    Times::new(&served, SINGLES).print("port");
    Times::new(&examined, SINGLES).print("examination");
}

fn clocked(work: impl FnOnce()) -> Duration {
    let start = Instant::now();
    work();
    start.elapsed()
}

fn one_at_a_time(port: &mut Port, records: &[u8]) {
    let mut answer = [0; 40];
    for record in records.chunks_exact(32) {
        port.batch(record, &mut answer);
        assert!(answer[0] == 0, "a record was refused");
    }
}

fn main() {
    println!("{BATCHES} batches of {RECORDS} records, {SLOTS} slots, {PASSES} passes");
    println!("ns per record: with the least time of each batch; the median pass (the best to the worst)");
    for shape in SHAPES {
        let whole = timed::<Reverse<u64>>(shape, TIME);
        let same = |form: Form, other: u64| assert!(other == whole, "{}: values, moves or lengths differ from kind 3", form.name);
        for form in [PAIR_BY_FIRST, PAIR_BY_SECOND] {
            same(form, timed::<(u64, u64)>(shape, form));
        }
        same(DESK, timed::<(u32, u16, Reverse<u8>)>(shape, DESK));
        same(FLOAT, timed_floats(shape));
    }
    singles::<Reverse<u64>>(TIME);
    singles::<(u64, u64)>(PAIR_BY_FIRST);
    singles::<(u32, u16, Reverse<u8>)>(DESK);
    singles::<Float>(FLOAT);
}
