//! Calls one side once, for a count of instructions: `once KIND OPTIONS_FILE INPUT_FILE SIDE
//! [ROOM]`. SIDE is `whole`, where the count picks the side by the function's name (`join_built`,
//! `format_built`, `felgutrosa_..`), `check` or `walk`.
use bench::{Case, words};
use std::hint::black_box;

fn main() {
    let words = words();
    let room = words.get(4).map(|word| word.parse().unwrap());
    let case = Case::read(&words[0], &words[1], &words[2], room);
    let mut buffers = case.buffers();
    match words[3].as_str() {
        "check" => black_box(felgutrosa::check_tree(&case.stored)).unwrap(),
        "walk" => {
            black_box(felgutrosa::chunks(
                &case.stored,
                &case.stored_options,
                &mut buffers.work,
            ))
            .unwrap();
        }
        // Both sides were called once when the case was read.
        _ => (),
    }
}
