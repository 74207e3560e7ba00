//! The unmodified Rust formatter and parser, reached through stored options, trees and chunk lists.
#![allow(dead_code)]

/// Named by parser/mod.rs, for a hint in a message.
pub const GUIDE_URL: &str = "";

include!(concat!(env!("OUT_DIR"), "/mos/root.rs"));

pub mod build;
pub mod generate;
pub mod prose;
pub mod reading;
pub mod room;
pub mod samples;
pub mod selfcheck;
pub mod stored;

use parser::source::InMemoryParsingSource;
use std::path::Path;
use std::sync::{Arc, Mutex};
use stored::{Alphabet, Refusal};

pub fn format_tree(options: &[u8], tree: &[u8], alphabet: Alphabet) -> Result<String, Refusal> {
    let options = stored::options(options)?;
    let tree = build::tree(&stored::read_tree(tree, alphabet)?);
    Ok(formatting::format(build::FILE, tree, options))
}

pub fn chunks_of_tree(options: &[u8], tree: &[u8], alphabet: Alphabet) -> Result<Vec<u8>, Refusal> {
    let options = stored::options(options)?;
    let tree = build::tree(&stored::read_tree(tree, alphabet)?);
    let chunks = formatting::oracle_access::chunks(build::FILE.into(), tree, options);
    Ok(stored::write_chunks(&chunks))
}

pub fn join(options: &[u8], chunks: &[u8], alphabet: Alphabet) -> Result<String, Refusal> {
    let options = stored::options(options)?;
    let chunks = stored::read_chunks(chunks, alphabet)?;
    Ok(formatting::oracle_access::join(&chunks, &options))
}

pub fn reading_of_tree(options: &[u8], tree: &[u8], alphabet: Alphabet) -> Result<String, Refusal> {
    let o = stored::options(options)?;
    let list = stored::read_tree(tree, alphabet)?;
    let mut out = String::new();
    reading::reading(&list, &reading::Casings::of(&o), &mut out);
    Ok(out)
}

/// The record highs of the work room, push by push, each four bytes, low byte first.
pub fn room_of_tree(options: &[u8], tree: &[u8], alphabet: Alphabet) -> Result<Vec<u8>, Refusal> {
    let options = stored::options(options)?;
    let list = stored::read_tree(tree, alphabet)?;
    let walk = room::walk(&list, options);
    let rust = formatting::oracle_access::chunks(build::FILE.into(), build::tree(&list), options);
    assert!(walk.chunks == rust, "the second walk differs from the Rust");
    let high = walk.peaks.iter().flat_map(|p| (*p as u32).to_le_bytes());
    Ok(high.collect())
}

/// Source text through the real parser: the tokens, if it gives any, and its messages.
pub fn parse(text: &str) -> (Option<Vec<parser::Token>>, Vec<String>) {
    let source = InMemoryParsingSource::new().add(build::FILE, text);
    let source: Arc<Mutex<dyn parser::source::ParsingSource>> = source.into();
    let (tree, errors) = parser::parse(Path::new(build::FILE), source);
    let tokens = tree.map(|tree| tree.main_file().tokens.as_ref().clone());
    (tokens, errors.messages())
}

/// Case number `i` of a seed: options, tree, chunk list.
/// `broken` damages the options, or the tree and the list.
pub fn case(seed: u64, i: u64, utf8: bool, broken: bool) -> (Vec<u8>, Vec<u8>, Vec<u8>) {
    let mut rng = generate::Rng::new(
        seed.wrapping_mul(0x2545_f491_4f6c_dd1d) ^ i.wrapping_mul(0xd6e8_feb8_6659_fd93),
    );
    let mut options = generate::options(&mut rng);
    let mut tree = if i < 9 {
        generate::deep_tree(62 + i as usize / 3, i as usize % 3)
    } else {
        generate::tree(&mut rng, utf8)
    };
    let mut chunks = generate::chunks(&mut rng, utf8);
    if broken {
        if rng.below(8) == 0 {
            generate::damage(&mut rng, &mut options);
        } else {
            generate::damage(&mut rng, &mut tree);
            generate::damage(&mut rng, &mut chunks);
        }
    }
    (options, tree, chunks)
}
