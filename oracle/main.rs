//! Holds the port to the crate that it was ported from, radix-heap 0.4.2, which is built from its own source, unchanged (see `run`).
//!
//! What the two share is judged by the crate: which entry a pop gives, in which order ties come, which key is refused (its
//! panic is caught), the top, the length, and the moves, by counting the calls of `radix_similarity` that the crate itself
//! makes while it drains. What only the port has is judged by documents 01 and 02: the form of records, a full pool, and a NaN.
//! Floats are judged where the crate is built with ordered-float, which `run` tells by the word `floats`.

mod compare;
mod floats;
mod judge;
mod record;
mod streams;
mod tuples;
mod zeros;

fn fail(why: &str) -> ! {
    eprintln!("oracle: {why}");
    std::process::exit(2)
}

fn main() {
    let words: Vec<String> = std::env::args().skip(1).collect();
    let number = |w: &str| w.parse::<u64>().unwrap_or_else(|_| fail(&format!("'{w}' is no number")));
    // the crate's panics are answers here
    std::panic::set_hook(Box::new(|_| {}));
    match words.iter().map(String::as_str).collect::<Vec<_>>()[..] {
        ["compare", records, seed, ref mirror @ ..] if !mirror.is_empty() => compare::compare(number(records), number(seed), mirror),
        ["record", folder, seed] if cfg!(floats) => record::record(folder.as_ref(), number(seed)),
        ["zeros", ref mirror @ ..] if cfg!(floats) && !mirror.is_empty() => zeros::show(mirror),
        _ => fail("usage: oracle compare RECORDS SEED MIRROR [WORDS..] | oracle record FOLDER SEED | oracle zeros MIRROR [WORDS..]"),
    }
}
