//! The same records to the crate and to the port, and every byte of the answers compared.

use crate::fail;
use crate::floats::{around, each_nan, each_pattern, has_both, zeros, MINUS_ZERO, PLUS_ZERO};
use crate::judge::crate_says;
use crate::streams::{each_bit, stream, Dice, Stream, Table, NO_TABLE, SLOTS};
use crate::tuples::TABLES;
use std::collections::HashSet;
use std::io::Write;
use std::process::{Command, Stdio};

/// The answers that the port gives: the program `mirror`, with the kind, the table and the slots before the records.
pub fn port_says(mirror: &[&str], stream: &Stream) -> Vec<u8> {
    let mut input = Vec::with_capacity(12 + 32 * stream.records.len());
    input.extend_from_slice(&stream.kind.to_le_bytes());
    input.extend_from_slice(&stream.table);
    input.extend_from_slice(&stream.slots.to_le_bytes());
    stream.bytes(&mut input);
    let mut child = Command::new(mirror[0])
        .args(&mirror[1..])
        .stdin(Stdio::piped())
        .stdout(Stdio::piped())
        .spawn()
        .unwrap_or_else(|e| fail(&format!("cannot run {}: {e}", mirror[0])));
    let mut to = child.stdin.take().expect("a pipe");
    let writer = std::thread::spawn(move || to.write_all(&input));
    let out = child.wait_with_output().unwrap_or_else(|e| fail(&format!("{}: {e}", mirror[0])));
    let _ = writer.join();
    out.stdout
}

/// Fewer records that still differ.
fn shrunk(mirror: &[&str], mut s: Stream) -> Stream {
    let mut step = s.records.len() / 2;
    while step > 0 {
        let mut at = 0;
        while at < s.records.len() {
            let mut t = s.clone();
            t.records.drain(at..(at + step).min(s.records.len()));
            if crate_says(&t) != port_says(mirror, &t) {
                s = t;
            } else {
                at += step;
            }
        }
        step /= 2;
    }
    s
}

fn show(mirror: &[&str], s: &Stream) {
    let (a, b) = (crate_says(s), port_says(mirror, s));
    println!("kind {}, table {:?}, {} slots, {} records:", s.kind, s.table, s.slots, s.records.len());
    for (i, r) in s.records.iter().enumerate() {
        println!("  {i}: op {} rest {} key {} {} value {}", r.op, r.rest, r.key0, r.key1, r.value);
        if s.kind == 6 {
            println!("     the key is {:016x}, {:e}", r.key0, f64::from_bits(r.key0));
        }
        for (who, says) in [("crate", &a), ("port ", &b)] {
            println!("     {who} {:02x?}", says.get(40 * i..40 * i + 40).unwrap_or(says));
        }
    }
}

fn of_any_length(dice: &mut Dice, kind: u32, table: Table, slots: u32) -> Stream {
    let length = dice.of(&[1usize, 17, 300, 1200, 2048]);
    stream(dice, kind, table, slots, length)
}

/// A round of kinds 1 to 4, each with each number of slots.
fn of_words(dice: &mut Dice, _: usize) -> Vec<Stream> {
    (1..=4).flat_map(|kind| SLOTS.map(|slots| of_any_length(dice, kind, NO_TABLE, slots))).collect()
}

/// A round of kind 5, the next table for each number of slots, and every bit of a key for one of them.
fn of_parts(dice: &mut Dice, round: usize) -> Vec<Stream> {
    let table = |i: usize| TABLES[(round + i) % TABLES.len()].table;
    let mut all: Vec<_> = SLOTS.iter().enumerate().map(|(i, &slots)| of_any_length(dice, 5, table(i), slots)).collect();
    all.push(each_bit(table(0), 257, 128));
    all
}

/// A round of kind 6 with each number of slots, every bit of a number, NaNs against the other codes, and either zero.
fn of_floats(dice: &mut Dice, _: usize) -> Vec<Stream> {
    let mut all: Vec<_> = SLOTS.iter().map(|&slots| of_any_length(dice, 6, NO_TABLE, slots)).collect();
    let slots = dice.of(&[257, 4096]);
    all.extend([each_pattern(dice, slots), each_nan(), around(PLUS_ZERO), around(MINUS_ZERO)]);
    all
}

/// How many streams and records of kind 6 have plus zero as a key, and how many minus zero.
#[derive(Default)]
struct Zeros {
    streams: [u64; 2],
    records: [u64; 2],
}

impl Zeros {
    fn count(&mut self, s: &Stream) {
        if has_both(s) {
            fail("a stream has both zeros");
        }
        for (i, n) in zeros(s).into_iter().enumerate() {
            self.streams[i] += (n > 0) as u64;
            self.records[i] += n;
        }
    }

    fn print(&self) {
        for (i, name) in ["plus", "minus"].iter().enumerate() {
            println!("{name} zero: the key of {} records, in {} streams", self.records[i], self.streams[i]);
        }
    }
}

/// Rounds until so many records were compared.
fn pass(what: &str, rounds: fn(&mut Dice, usize) -> Vec<Stream>, wanted: u64, seed: u64, mirror: &[&str]) {
    let mut dice = Dice(seed);
    let (mut records, mut streams, mut told, mut round) = (0u64, 0u64, 0u64, 0);
    let (mut codes, mut tables, mut zeros) = ([0u64; 10], HashSet::new(), None);
    println!("{what}, seed {seed}");
    while records < wanted {
        for s in rounds(&mut dice, round) {
            if s.kind == 6 {
                zeros.get_or_insert_with(Zeros::default).count(&s);
            }
            let says = crate_says(&s);
            if says != port_says(mirror, &s) {
                println!("the answers differ in stream {streams}; the shortest that was found:");
                show(mirror, &shrunk(mirror, s));
                std::process::exit(1);
            }
            says.chunks(40).for_each(|a| codes[a[0] as usize] += 1);
            records += s.records.len() as u64;
            streams += 1;
            tables.insert(s.table);
        }
        round += 1;
        if records - told >= wanted / 20 {
            told = records;
            println!("{records} records in {streams} streams, no difference");
        }
    }
    println!("{what}: {records} records in {streams} streams compared byte for byte, no difference");
    println!("answers by code: {codes:?}");
    if !tables.contains(&NO_TABLE) {
        println!("tables used: {}", tables.len());
    }
    if let Some(zeros) = zeros {
        zeros.print();
    }
}

/// So many records of kinds 1 to 4, by dice of its own as many of kind 5, and so of kind 6 if it has a judge.
pub fn compare(wanted: u64, seed: u64, mirror: &[&str]) {
    pass("kinds 1 to 4", of_words, wanted, seed, mirror);
    pass("kind 5", of_parts, wanted, seed, mirror);
    if cfg!(floats) {
        pass("kind 6", of_floats, wanted, seed, mirror);
    }
}
