//! The answers that are due: texts and chunks from the Rust formatter, refusals from the oracle's
//! reader of the stored layouts and from its second walk.
use oracle::formatting::{self, oracle_access};
use oracle::stored::{self, Alphabet, MAX_CHUNKS, Refusal};
use oracle::{build, room};

/// Number 0 and the length, or the refusal's number and its place.
pub type Answer = (u8, usize);

pub fn answer(result: Result<usize, Refusal>) -> Answer {
    match result {
        Ok(length) => (0, length),
        Err(refusal) => (refusal.number, refusal.place),
    }
}

/// What is due for a tree whose options are accepted, as the tree is.
pub struct Walked {
    pub chunks: Vec<u8>,
    pub text: Vec<u8>,
    /// The bytes held at the pushes that needed more room than every push before.
    peaks: Vec<usize>,
}

impl Walked {
    pub fn new(options: &[u8], tree: &[u8]) -> Result<Walked, Refusal> {
        let options = stored::options(options)?;
        let list = stored::read_tree(tree, Alphabet::Ascii)?;
        let built = build::tree(&list);
        let chunks = oracle_access::chunks(build::FILE.into(), built.clone(), options);
        Ok(Walked {
            chunks: stored::write_chunks(&chunks),
            text: formatting::format(build::FILE, built, options).into_bytes(),
            peaks: room::walk(&list, options).peaks,
        })
    }

    /// The least room that is enough.
    pub fn need(&self) -> usize {
        self.peaks.last().copied().unwrap_or(0)
    }

    /// How much of a room the walk may write.
    pub fn written(&self, room: usize) -> usize {
        let fits = |peak: &&usize| **peak <= room.min(MAX_CHUNKS);
        self.peaks.iter().take_while(fits).last().map_or(0, |p| *p)
    }

    pub fn chunks_in(&self, room: usize) -> Result<&[u8], Refusal> {
        match self.peaks.iter().find(|p| **p > room.min(MAX_CHUNKS)) {
            Some(place) => stored::refuse(8, *place),
            None => Ok(&self.chunks),
        }
    }

    pub fn text_in(&self, room: usize, buffer: usize) -> Result<&[u8], Refusal> {
        self.chunks_in(room)?;
        fitting(&self.text, buffer)
    }
}

pub fn checked(tree: &[u8]) -> Result<usize, Refusal> {
    stored::read_tree(tree, Alphabet::Ascii).map(|_| 0)
}

pub fn joined(options: &[u8], list: &[u8]) -> Result<Vec<u8>, Refusal> {
    oracle::join(options, list, Alphabet::Ascii).map(String::into_bytes)
}

pub fn fitting(text: &[u8], buffer: usize) -> Result<&[u8], Refusal> {
    if text.len() > buffer {
        return stored::refuse(9, text.len());
    }
    Ok(text)
}
