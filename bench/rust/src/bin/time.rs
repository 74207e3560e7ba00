//! Times both sides in one process: `time KIND OPTIONS_FILE INPUT_FILE ROUNDS [ROOM]`. Prints a
//! line for each figure: the bytes of text, room and buffer, and the least time of a call in
//! nanoseconds, of the Rust and of the port, and of a tree also of the port's check and walk alone.
//! The sides take turns.
use bench::clock::{Side, spent, take_turns};
use bench::{Buffers, Case, Input, words};
use std::hint::black_box;

/// What the Rust takes is made before the clock is looked at, and its texts are let go after it.
fn rust_calls(case: &Case, calls: usize) -> f64 {
    let given: Vec<_> = (0..calls).map(|_| case.given()).collect();
    let mut texts = Vec::with_capacity(calls);
    let start = spent();
    for one in given {
        texts.push(case.rust(one));
    }
    let time = spent() - start;
    black_box(texts);
    time
}

/// The buffers are not cleared between calls.
fn port_calls(buffers: &mut Buffers, calls: usize, mut call: impl FnMut(&mut Buffers)) -> f64 {
    let start = spent();
    for _ in 0..calls {
        call(black_box(&mut *buffers));
    }
    spent() - start
}

fn main() {
    let words = words();
    let rounds: usize = words[3].parse().unwrap();
    let room = words.get(4).map(|word| word.parse().unwrap());
    let case = &Case::read(&words[0], &words[1], &words[2], room);
    let (mut whole, mut checked, mut walked) = (case.buffers(), case.buffers(), case.buffers());
    let mut sides = vec![
        Side::new("rust", |calls| rust_calls(case, calls)),
        Side::new("port", |calls| {
            port_calls(&mut whole, calls, |buffers| {
                black_box(case.port(buffers)).unwrap();
            })
        }),
    ];
    if let Input::Tree(_) = case.input {
        sides.push(Side::new("check", |calls| {
            port_calls(&mut checked, calls, |_| {
                black_box(felgutrosa::check_tree(&case.stored)).unwrap()
            })
        }));
        sides.push(Side::new("walk", |calls| {
            port_calls(&mut walked, calls, |buffers| {
                black_box(felgutrosa::chunks(
                    &case.stored,
                    &case.stored_options,
                    &mut buffers.work,
                ))
                .unwrap();
            })
        }));
    }
    println!("text {}\nroom {}", case.text.len(), case.room);
    take_turns(sides, rounds);
}
