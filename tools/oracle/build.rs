//! Copies the formatter's and the parser's source files, byte for byte, into the build folder,
//! and appends to the copy of formatting/mod.rs a module that reaches its private parts.
use std::path::{Path, PathBuf};
use std::process::exit;
use std::{env, fs};

const FILES: [&str; 7] = [
    "parser/mod.rs",
    "parser/ast.rs",
    "parser/code_map.rs",
    "parser/identifier.rs",
    "parser/mnemonic.rs",
    "parser/source.rs",
    "formatting/mod.rs",
];

fn main() {
    let here = PathBuf::from(env::var("CARGO_MANIFEST_DIR").unwrap());
    let out = PathBuf::from(env::var("OUT_DIR").unwrap()).join("mos");
    println!("cargo:rerun-if-env-changed=MOS_CORE_SRC");
    let Ok(from) = env::var("MOS_CORE_SRC") else {
        eprintln!("MOS_CORE_SRC is not set: it names mos-core/src of datatrash/mos at 73478e0b55");
        exit(1);
    };
    let from = PathBuf::from(from);

    for name in FILES {
        let source = from.join(name);
        println!("cargo:rerun-if-changed={}", source.display());
        let mut text = fs::read(&source).unwrap_or_else(|e| {
            eprintln!("{}: {}", source.display(), e);
            exit(1);
        });
        if name == "formatting/mod.rs" {
            text.extend(read(&here.join("src/appended_to_formatting.rs")));
        }
        write(&out.join(name), &text);
    }

    // Two files that the sources name and that are not read: stand-ins.
    write(
        &out.join("parser/config_map.rs"),
        &read(&here.join("src/own_config_map.rs")),
    );
    write(
        &out.join("errors.rs"),
        &read(&here.join("src/own_errors.rs")),
    );
    write(
        &out.join("root.rs"),
        b"pub mod errors;\npub mod formatting;\npub mod parser;\n",
    );
}

fn read(path: &Path) -> Vec<u8> {
    println!("cargo:rerun-if-changed={}", path.display());
    fs::read(path).unwrap()
}

fn write(path: &Path, text: &[u8]) {
    fs::create_dir_all(path.parent().unwrap()).unwrap();
    fs::write(path, text).unwrap();
}
