//! Finds the static library: in the folder that THRIFTACORN_LIB names (a relative path starts from this folder), or in
//! the repository's crates/thriftacorn/out. It is for x86-64.
use std::{env, path::PathBuf, process::exit};

fn main() {
    println!("cargo:rerun-if-env-changed=THRIFTACORN_LIB");
    let here = PathBuf::from(env::var_os("CARGO_MANIFEST_DIR").unwrap());
    let (own, command) = ("../../crates/thriftacorn/out", "sh build.sh thriftacorn");
    let folder = here.join(env::var_os("THRIFTACORN_LIB").unwrap_or(own.into()));
    let archive = folder.join("libthriftacorn.a");
    if !archive.is_file() {
        eprintln!("thriftacorn: there is no {}", archive.display());
        eprintln!("Make it with '{command}' in the repository's root (some minutes: it proves the functions first),");
        eprintln!("or set THRIFTACORN_LIB to the folder that has libthriftacorn.a.");
        exit(1);
    }
    println!("cargo:rerun-if-changed={}", archive.display());
    println!("cargo:rustc-link-search=native={}", folder.display());
}
