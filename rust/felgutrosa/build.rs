//! Finds the static library of crate `exports_c`, or has it proved and built where there is none.
use std::env;
use std::path::{Path, PathBuf};
use std::process::{Command, exit};

/// The folder that `bin/staticlib` writes to, in the repository of which this crate is a part.
fn built_here(repository: &Path) -> PathBuf {
    let folder = repository.join("target/staticlib");
    if !folder.join("libexports.a").exists() {
        let done = Command::new(repository.join("bin/staticlib")).status();
        if !done.is_ok_and(|status| status.success()) {
            eprintln!(
                "`bin/staticlib` gave no library; or set FELGUTROSA_LIB to the folder of libexports.a"
            );
            exit(1);
        }
    }
    folder
}

fn main() {
    println!("cargo:rerun-if-env-changed=FELGUTROSA_LIB");
    let repository = PathBuf::from(env::var("CARGO_MANIFEST_DIR").unwrap()).join("../..");
    let folder = match env::var_os("FELGUTROSA_LIB") {
        Some(folder) => PathBuf::from(folder),
        None => built_here(&repository),
    };
    println!(
        "cargo:rerun-if-changed={}",
        folder.join("libexports.a").display()
    );
    println!("cargo:rustc-link-search=native={}", folder.display());
    println!("cargo:rustc-link-lib=static=exports");
}
