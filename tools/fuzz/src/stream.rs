//! Writes calls as cases for `crates/replay`, with the answers that are due, so that `rt try` can
//! make the same calls at other levels of optimisation.
use crate::tally::Trial;
use std::fs::File;
use std::io::{BufWriter, Write};
use std::path::Path;

/// The longest options that `replay` takes.
const MOST_OPTIONS: usize = 16;
/// The longest input or buffer that is written: `rt try` gives a run little time.
const MOST_BYTES: usize = 4_096;
/// `rt try` ends a program that writes more than 1,048,576 bytes.
const MOST_ANSWERS: usize = 1_048_576;

pub struct Stream {
    cases: BufWriter<File>,
    answers: BufWriter<File>,
    answers_length: usize,
    pub calls: u64,
}

fn four(number: usize) -> [u8; 4] {
    (number as u32).to_le_bytes()
}

impl Stream {
    pub fn new(folder: &str) -> Stream {
        let file = |name| BufWriter::new(File::create(Path::new(folder).join(name)).unwrap());
        Stream {
            cases: file("stdin"),
            answers: file("stdout"),
            answers_length: 0,
            calls: 0,
        }
    }

    /// Writes a call, unless it is too long for the run.
    pub fn write(&mut self, trial: &Trial) {
        let [work, text] = trial.lengths;
        let longest = work.max(text).max(trial.input.len());
        let answers_length = self.answers_length + 6 + trial.text.len();
        if trial.options.len() > MOST_OPTIONS
            || longest > MOST_BYTES
            || answers_length > MOST_ANSWERS
        {
            return;
        }
        self.answers_length = answers_length;
        self.calls += 1;
        self.write_case(trial);
        self.write_answer(trial);
    }

    fn write_case(&mut self, trial: &Trial) {
        let mut case = vec![b"KCFJ"[trial.call]];
        for part in [trial.options, trial.input] {
            case.extend(four(part.len()));
            case.extend(part);
        }
        case.extend(trial.lengths.map(four).concat());
        self.cases.write_all(&case).unwrap();
    }

    fn write_answer(&mut self, trial: &Trial) {
        let mut answer = vec![trial.due.0];
        answer.extend(four(trial.due.1));
        answer.push(0);
        answer.extend(trial.text);
        self.answers.write_all(&answer).unwrap();
    }
}
