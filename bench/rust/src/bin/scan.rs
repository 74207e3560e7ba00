//! Asks whether a line has ink: `scan LINE_FILE ROUNDS`. Prints a line for each figure: the least
//! time of a call in nanoseconds, of the Rust and of the port, which take turns. With 0 rounds each
//! is called once, for a count of instructions.
use bench::clock::{Side, spent, take_turns};
use bench::read_file;
use std::hint::black_box;
use std::process::exit;

/// As the Rust asks it where it ends a line.
#[inline(never)]
fn rust_has_ink(line: &str) -> bool {
    !line.trim().is_empty()
}

fn calls_of(calls: usize, mut call: impl FnMut() -> bool) -> f64 {
    let start = spent();
    for _ in 0..calls {
        black_box(call());
    }
    spent() - start
}

fn main() {
    let words: Vec<String> = std::env::args().skip(1).collect();
    let line = String::from_utf8(read_file(&words[0])).unwrap();
    let rounds: usize = words[1].parse().unwrap();
    let rust = || rust_has_ink(black_box(&line));
    let port = || felgutrosa::has_ink(black_box(line.as_bytes()));
    if rust() != port() {
        eprintln!("the two sides differ");
        exit(4);
    }
    if rounds == 0 {
        return;
    }
    let sides = vec![
        Side::new("rust", |calls| calls_of(calls, rust)),
        Side::new("port", |calls| calls_of(calls, port)),
    ];
    take_turns(sides, rounds);
}
