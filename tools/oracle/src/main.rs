//! Answers stored cases by the unmodified Rust formatter; see README.md.
use oracle::stored::{self, Alphabet, Refusal};
use oracle::{build, case, formatting, parser, reading, samples, selfcheck};
use oracle::{chunks_of_tree, format_tree, join, reading_of_tree, room_of_tree};
use std::io::{Read, Write};
use std::panic::{AssertUnwindSafe, catch_unwind};
use std::path::PathBuf;
use std::process::exit;

/// One command of the batch: F format, J join, C chunks, R reading order, P places used,
/// W work room.
/// A small letter accepts bytes 0 to 127 only.
fn run(command: u8, options: &[u8], payload: &[u8]) -> Result<Vec<u8>, Refusal> {
    let alphabet = if command.is_ascii_lowercase() {
        Alphabet::Ascii
    } else {
        Alphabet::Utf8
    };
    match command.to_ascii_uppercase() {
        b'F' => format_tree(options, payload, alphabet).map(String::into_bytes),
        b'J' => join(options, payload, alphabet).map(String::into_bytes),
        b'C' => chunks_of_tree(options, payload, alphabet),
        b'R' => reading_of_tree(options, payload, alphabet).map(String::into_bytes),
        b'W' => room_of_tree(options, payload, alphabet),
        b'P' => {
            stored::options(options)?;
            Ok(reading::places(&stored::read_tree(payload, alphabet)?).into_bytes())
        }
        _ => {
            eprintln!("no such command: {}", command);
            exit(2);
        }
    }
}

/// Status 0 and the answer; 1 and `number place`; 2 and the panic's message.
fn guarded(command: u8, options: &[u8], payload: &[u8]) -> (u8, Vec<u8>) {
    match catch_unwind(AssertUnwindSafe(|| run(command, options, payload))) {
        Ok(Ok(answer)) => (0, answer),
        Ok(Err(r)) => (1, format!("{} {}", r.number, r.place).into_bytes()),
        Err(p) => {
            let message = p
                .downcast_ref::<String>()
                .cloned()
                .or_else(|| p.downcast_ref::<&str>().map(|s| s.to_string()))
                .unwrap_or_default();
            (2, message.into_bytes())
        }
    }
}

fn batch() {
    let mut input = vec![];
    std::io::stdin().lock().read_to_end(&mut input).unwrap();
    let mut out = std::io::BufWriter::new(std::io::stdout().lock());
    let mut at = 0;
    let mut cut = |len: usize| -> &[u8] {
        if at + len > input.len() {
            eprintln!("the stream of cases is cut short at byte {}", at);
            exit(2);
        }
        at += len;
        &input[at - len..at]
    };
    let len4 = |b: &[u8]| u32::from_le_bytes(b.try_into().unwrap()) as usize;
    let total = input.len();
    let mut used = 0;
    while used < total {
        let command = cut(1)[0];
        let n = len4(cut(4));
        let options = cut(n);
        let m = len4(cut(4));
        let payload = cut(m);
        used += 9 + n + m;
        let (status, answer) = guarded(command, options, payload);
        out.write_all(&[status]).unwrap();
        out.write_all(&(answer.len() as u32).to_le_bytes()).unwrap();
        out.write_all(&answer).unwrap();
    }
    out.flush().unwrap();
}

fn read_file(path: &str) -> Vec<u8> {
    std::fs::read(path).unwrap_or_else(|e| {
        eprintln!("{}: {}", path, e);
        exit(2);
    })
}

fn read_source(path: &str) -> String {
    String::from_utf8(read_file(path)).unwrap_or_else(|_| {
        eprintln!("{}: not UTF-8", path);
        exit(3);
    })
}

/// The tokens of a source file; messages go to standard error where there are none.
fn parse_source(path: &str) -> (Vec<parser::Token>, Vec<String>) {
    let (tokens, messages) = oracle::parse(&read_source(path));
    let Some(tokens) = tokens else {
        eprintln!("{}", messages.join("\n"));
        exit(3);
    };
    (tokens, messages)
}

fn write_case(command: u8, options: &[u8], payload: &[u8], out: &mut dyn Write) {
    out.write_all(&[command]).unwrap();
    for part in [options, payload] {
        out.write_all(&(part.len() as u32).to_le_bytes()).unwrap();
        out.write_all(part).unwrap();
    }
}

fn usage() -> ! {
    eprintln!(
        "usage:
  oracle [--ascii] format OPTIONS_FILE TREE_FILE
  oracle [--ascii] join OPTIONS_FILE CHUNKS_FILE
  oracle [--ascii] chunks OPTIONS_FILE TREE_FILE
  oracle [--ascii] reading OPTIONS_FILE TREE_FILE
  oracle [--ascii] places TREE_FILE
  oracle [--ascii] room OPTIONS_FILE TREE_FILE
  oracle batch                            cases on stdin, answers on stdout
  oracle parse SOURCE_FILE                stored tree of assembler source
  oracle format-source OPTIONS_FILE SOURCE_FILE
  oracle [--utf8] [--broken] gen SEED COUNT OUT_DIR
  oracle [--utf8] [--broken] gen-stream SEED COUNT [COMMANDS]
  oracle samples                          the samples of document 01
  oracle selfcheck SEED COUNT [SOURCE_FILE..]"
    );
    exit(2);
}

fn main() {
    build::assert_declared_order();
    let mut args: Vec<String> = std::env::args().skip(1).collect();
    let mut alphabet = Alphabet::Utf8;
    let mut utf8 = false;
    let mut broken = false;
    while let Some(a) = args.first() {
        match a.as_str() {
            "--ascii" => alphabet = Alphabet::Ascii,
            "--utf8" => utf8 = true,
            "--broken" => broken = true,
            _ => break,
        }
        args.remove(0);
    }
    let args: Vec<&str> = args.iter().map(String::as_str).collect();
    std::panic::set_hook(Box::new(|_| ()));
    let small = |c: u8| {
        if alphabet == Alphabet::Ascii {
            c.to_ascii_lowercase()
        } else {
            c
        }
    };
    let single = |c: u8, options: &[u8], payload: &[u8]| {
        let (status, answer) = guarded(small(c), options, payload);
        match status {
            0 => std::io::stdout().write_all(&answer).unwrap(),
            1 => {
                let text = String::from_utf8_lossy(&answer).to_string();
                let (number, place) = text.split_once(' ').unwrap();
                eprintln!("malformed: answer number {} at place {}", number, place);
                exit(3);
            }
            _ => {
                eprintln!("the Rust panicked: {}", String::from_utf8_lossy(&answer));
                exit(4);
            }
        }
    };
    match args[..] {
        ["format", o, t] => single(b'F', &read_file(o), &read_file(t)),
        ["join", o, t] => single(b'J', &read_file(o), &read_file(t)),
        ["chunks", o, t] => single(b'C', &read_file(o), &read_file(t)),
        ["reading", o, t] => single(b'R', &read_file(o), &read_file(t)),
        ["room", o, t] => {
            let (status, answer) = guarded(small(b'W'), &read_file(o), &read_file(t));
            if status != 0 {
                eprintln!("status {}: {}", status, String::from_utf8_lossy(&answer));
                exit(2 + status as i32);
            }
            for p in answer.chunks(4) {
                println!("{}", u32::from_le_bytes(p.try_into().unwrap()));
            }
        }
        ["places", t] => single(b'P', &[0], &read_file(t)),
        ["batch"] => batch(),
        ["parse", s] => {
            let (tokens, messages) = parse_source(s);
            for m in messages {
                eprintln!("note: {}", m);
            }
            match build::store(&tokens) {
                Ok(bytes) => std::io::stdout().write_all(&bytes).unwrap(),
                Err(e) => {
                    eprintln!("cannot be stored: {}", e);
                    exit(3);
                }
            }
        }
        ["format-source", o, s] => {
            let options = stored::options(&read_file(o)).unwrap_or_else(|r| {
                eprintln!("malformed: answer number {} at place {}", r.number, r.place);
                exit(3);
            });
            let (tokens, _) = parse_source(s);
            let text = formatting::format(build::FILE, build::tree_of_tokens(tokens), options);
            print!("{}", text);
        }
        ["gen", seed, count, dir] => {
            let (seed, count) = (number(seed), number(count));
            std::fs::create_dir_all(dir).unwrap();
            for i in 0..count {
                let (options, tree, chunks) = case(seed, i, utf8, broken);
                let base = PathBuf::from(dir).join(format!("{:06}", i));
                std::fs::write(base.with_extension("options"), options).unwrap();
                std::fs::write(base.with_extension("tree"), tree).unwrap();
                std::fs::write(base.with_extension("chunks"), chunks).unwrap();
            }
        }
        ["gen-stream", seed, count] => stream(number(seed), number(count), "FCJ", utf8, broken),
        ["gen-stream", seed, count, commands] => {
            stream(number(seed), number(count), commands, utf8, broken)
        }
        ["selfcheck", seed, count, ref sources @ ..] => {
            let sources: Vec<_> = sources.iter().map(|s| (*s, read_source(s))).collect();
            exit(selfcheck::run(number(seed), number(count), &sources))
        }
        ["samples"] => exit(samples::run()),
        _ => usage(),
    }
}

fn stream(seed: u64, count: u64, commands: &str, utf8: bool, broken: bool) {
    let mut out = std::io::BufWriter::new(std::io::stdout().lock());
    for i in 0..count {
        let (options, tree, chunks) = case(seed, i, utf8, broken);
        for c in commands.bytes() {
            let payload = if c.to_ascii_uppercase() == b'J' {
                &chunks
            } else {
                &tree
            };
            write_case(c, &options, payload, &mut out);
        }
    }
    out.flush().unwrap();
}

fn number(s: &str) -> u64 {
    s.parse().unwrap_or_else(|_| usage())
}
