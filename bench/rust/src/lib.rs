//! A case, and one call of each side on it: the Rust original, and the port by its static library.
use oracle::build;
use oracle::formatting::oracle_access::{self, Built, PlainChunk};
use oracle::formatting::{self, FormattingOptions};
use oracle::parser::ParseTree;
use oracle::room;
use oracle::stored::{self, Alphabet, Refusal};
use std::process::exit;
use std::sync::Arc;

pub mod clock;

/// What both sides take.
pub enum Input {
    List(Vec<PlainChunk>),
    Tree(Arc<ParseTree>),
}

/// A list or a tree with its options, as the Rust takes them and stored as the port does. The
/// port's buffers have the lengths that are needed and no more.
pub struct Case {
    pub options: FormattingOptions,
    pub stored_options: Vec<u8>,
    pub input: Input,
    pub stored: Vec<u8>,
    /// The bytes of chunks that the walk holds at most, and so the least work room. Of a list there
    /// are none.
    pub room: usize,
    /// The text that the Rust gives.
    pub text: String,
}

/// What the Rust takes in one call: `join_chunks` takes its chunks by value.
pub enum Given {
    Chunks(Built),
    Tree(Arc<ParseTree>),
}

/// The buffers that are lent to the port.
pub struct Buffers {
    pub work: Vec<u8>,
    pub text: Vec<u8>,
}

/// The Rust's tree call, as a function that a measurement can name.
#[inline(never)]
pub fn format_built(tree: Arc<ParseTree>, options: FormattingOptions) -> String {
    formatting::format(build::FILE, tree, options)
}

impl Case {
    /// `kind` is `list` or `tree`, `room` the length of the work room where it is not the least.
    pub fn read(kind: &str, options_file: &str, input_file: &str, room: Option<usize>) -> Case {
        let (stored_options, stored) = (read_file(options_file), read_file(input_file));
        let mut case = Case::new(kind, stored_options, stored).unwrap_or_else(|refusal| {
            eprintln!("refused: {refusal:?}");
            exit(3);
        });
        case.room = room.unwrap_or(case.room);
        case.text = case.rust(case.given());
        let mut buffers = case.buffers();
        let answer = case.port(&mut buffers);
        if answer != Ok(case.text.len()) || buffers.text != case.text.as_bytes() {
            eprintln!("the two sides differ: {answer:?}");
            exit(4);
        }
        case
    }

    fn new(kind: &str, stored_options: Vec<u8>, stored: Vec<u8>) -> Result<Case, Refusal> {
        let options = stored::options(&stored_options)?;
        let (input, room) = if kind == "list" {
            (
                Input::List(stored::read_chunks(&stored, Alphabet::Ascii)?),
                0,
            )
        } else {
            let list = stored::read_tree(&stored, Alphabet::Ascii)?;
            let peaks = room::walk(&list, options).peaks;
            let most = peaks.into_iter().max().unwrap_or(0);
            (Input::Tree(build::tree(&list)), most)
        };
        let text = String::new();
        Ok(Case {
            options,
            stored_options,
            input,
            stored,
            room,
            text,
        })
    }

    /// What a call of the Rust takes, made anew.
    pub fn given(&self) -> Given {
        match &self.input {
            Input::List(chunks) => Given::Chunks(oracle_access::build(chunks)),
            Input::Tree(tree) => Given::Tree(tree.clone()),
        }
    }

    /// One call of the Rust.
    pub fn rust(&self, given: Given) -> String {
        match given {
            Given::Chunks(chunks) => oracle_access::join_built(chunks, &self.options),
            Given::Tree(tree) => format_built(tree, self.options),
        }
    }

    pub fn buffers(&self) -> Buffers {
        Buffers {
            work: vec![0xee; self.room],
            text: vec![0xee; self.text.len()],
        }
    }

    /// One call of the port. The buffers are lent as the last call left them.
    pub fn port(&self, buffers: &mut Buffers) -> Result<usize, felgutrosa::Refusal> {
        let Buffers { work, text } = buffers;
        match self.input {
            Input::List(_) => felgutrosa::join_chunks(&self.stored, &self.stored_options, text),
            Input::Tree(_) => felgutrosa::format(&self.stored, &self.stored_options, work, text),
        }
    }
}

pub fn read_file(path: &str) -> Vec<u8> {
    std::fs::read(path).unwrap_or_else(|e| {
        eprintln!("{path}: {e}");
        exit(2);
    })
}

/// The words behind a program's name: KIND OPTIONS_FILE INPUT_FILE, and others behind them.
pub fn words() -> Vec<String> {
    let words: Vec<String> = std::env::args().skip(1).collect();
    if words.len() < 3 {
        eprintln!("usage: KIND OPTIONS_FILE INPUT_FILE ..");
        exit(2);
    }
    words
}
