//! Runs generated cases through everything here and compares the answers with each other.
use crate::stored::{self, Alphabet};
use crate::{build, formatting, prose, reading, room, samples};

fn ink(s: &[u8]) -> Vec<u8> {
    s.iter().copied().filter(|b| !prose::blank(*b)).collect()
}

/// The exit code.
pub fn run(seed: u64, count: u64, sources: &[(&str, String)]) -> i32 {
    let mut wrong = samples::run();
    let mut used = [0usize; 8];
    let mut departed = [0usize; 8];
    let mut fault = |what: &str, i: u64| {
        println!("DIFF case {}: {}", i, what);
        wrong = 1;
    };

    for i in 0..count {
        let (o, t, c) = crate::case(seed, i, false, false);
        let options = stored::options(&o).unwrap();
        let list = match stored::read_tree(&t, Alphabet::Ascii) {
            Ok(list) => list,
            Err(r) => {
                fault(&format!("tree refused: {:?}", r), i);
                continue;
            }
        };
        let tree = build::tree(&list);
        let again = build::store(&tree.main_file().tokens);
        if again.as_ref() != Ok(&t) {
            fault("the tree stored again is another", i);
        }
        let text = formatting::format(build::FILE, tree.clone(), options);
        let chunks = formatting::oracle_access::chunks(build::FILE.into(), tree, options);
        if formatting::oracle_access::join(&chunks, &options) != text {
            fault("join of the chunks is not the text", i);
        }
        if prose::join(&chunks, &options) != text.as_bytes() {
            fault(
                "the document's steps give another text for the tree's chunks",
                i,
            );
        }
        if room::walk(&list, options).chunks != chunks {
            fault("the second walk gives other chunks", i);
        }
        let stored_chunks = stored::write_chunks(&chunks);
        if stored::read_chunks(&stored_chunks, Alphabet::Ascii).as_ref() != Ok(&chunks) {
            fault("the chunk list does not come back", i);
        }

        let places = reading::places(&list);
        let mut order = String::new();
        let casings = reading::Casings::of(&options);
        reading::reading(&list, &casings, &mut order);
        let same = ink(order.as_bytes()) == ink(text.as_bytes());
        if let [p] = places.as_bytes() {
            used[(p - b'a') as usize] += 1;
            departed[(p - b'a') as usize] += !same as usize;
        }
        if places.is_empty() && !same {
            fault("ink differs although no place is used", i);
        }

        match stored::read_chunks(&c, Alphabet::Ascii) {
            Ok(chunks) => {
                let text = formatting::oracle_access::join(&chunks, &options);
                if prose::join(&chunks, &options) != text.as_bytes() {
                    fault("the document's steps give another text for a chunk list", i);
                }
            }
            Err(r) => fault(&format!("chunk list refused: {:?}", r), i),
        }
    }

    for (name, text) in sources {
        let (Some(tokens), _) = crate::parse(text) else {
            fault(&format!("{}: the parser gives no tokens", name), 0);
            continue;
        };
        match build::store(&tokens) {
            Err(e) => fault(&format!("{}: {}", name, e), 0),
            Ok(bytes) => {
                let options = stored::options(&[0]).unwrap();
                let direct =
                    formatting::format(build::FILE, build::tree_of_tokens(tokens), options);
                if crate::format_tree(&[0], &bytes, Alphabet::Utf8) != Ok(direct) {
                    fault(&format!("{}: stored and direct text differ", name), 0);
                }
            }
        }
    }

    println!("{} cases, {} sources", count, sources.len());
    println!("trees that use just one place, and those of them whose ink departs:");
    for i in 0..8 {
        println!(
            "  ({}) {} {}",
            char::from(b'a' + i as u8),
            used[i],
            departed[i]
        );
    }
    wrong
}
