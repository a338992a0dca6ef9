//! What the crate does with the two zeros, which document 02 does not want copied: the same records to the crate and to the port,
//! and what each answers. The crate is no judge of these streams; the port's answers are held against document 02's order.

use crate::compare::port_says;
use crate::fail;
use crate::floats::{MINUS_ZERO, PLUS_ZERO};
use crate::judge::crate_says;
use crate::streams::{Record, Stream, NO_TABLE};

/// A record, and what the port is to answer.
type Step = (Record, &'static str);

fn clear_to(key0: u64) -> Step {
    (Record { op: 5, rest: 0, key0, key1: 0, value: 0 }, "done")
}

fn push(key0: u64, told: &'static str) -> Step {
    (Record { op: 1, rest: 0, key0, key1: 0, value: 0 }, told)
}

fn pop(told: &'static str) -> Step {
    (Record { op: 2, rest: 0, key0: 0, key1: 0, value: 0 }, told)
}

/// Document 02's own; the same with minus zero pushed too; and with no top, where the crate takes the last of equal keys for it.
fn examples() -> [(&'static str, Vec<Step>); 3] {
    let (plus, minus, one) = (PLUS_ZERO, MINUS_ZERO, (-1f64).to_bits());
    [
        ("top minus zero", vec![clear_to(minus), push(plus, "code 6"), push(one, "done"), pop("-1.0"), pop("code 8")]),
        (
            "and minus zero pushed",
            vec![clear_to(minus), push(plus, "code 6"), push(one, "done"), push(minus, "done"), pop("-0.0"), pop("-1.0"), pop("code 8")],
        ),
        ("no top", vec![push(plus, "done"), push(minus, "done"), push(one, "done"), pop("+0.0"), pop("-0.0"), pop("-1.0")]),
    ]
}

fn asked(r: &Record) -> String {
    let key = f64::from_bits(r.key0);
    match r.op {
        1 => format!("push {key:+?}"),
        5 => format!("clear_to {key:+?}"),
        _ => "pop".into(),
    }
}

/// Code 6 is the crate's panic, and code 8 its `None`.
fn told(answer: &[u8]) -> String {
    let word = answer[16..24].try_into().expect("eight bytes");
    match answer[..2] {
        [0, 0] => "done".into(),
        [0, _] => format!("{:+?}", f64::from_bits(u64::from_le_bytes(word))),
        _ => format!("code {}", answer[0]),
    }
}

pub fn show(mirror: &[&str]) {
    for (name, steps) in examples() {
        let s = Stream { kind: 6, table: NO_TABLE, slots: 16, records: steps.iter().map(|step| step.0).collect() };
        let (a, b) = (crate_says(&s), port_says(mirror, &s));
        println!("{name:<24} {:<8} port", "crate");
        for (i, (record, wanted)) in steps.iter().enumerate() {
            let [a, b] = [&a, &b].map(|says| says.get(40 * i..40 * i + 40).map_or("nothing".into(), told));
            println!("  {:<22} {a:<8} {b}", asked(record));
            if b != *wanted {
                fail(&format!("document 02 has {wanted} here"));
            }
        }
    }
    println!("the port's answers are those of document 02");
}
