//! Links the static library `libwatcher.a`: from the folder that WATCHER_LIB names, or else from
//! the repository's `target/staticlib`, where `tools/library` writes it.

use std::env;
use std::path::PathBuf;
use std::process::exit;

fn main() {
    let here = PathBuf::from(env::var("CARGO_MANIFEST_DIR").expect("cargo sets it"));
    let named = env::var_os("WATCHER_LIB").map(PathBuf::from);
    let folder = named.clone().unwrap_or_else(|| here.join("../../target/staticlib"));
    let archive = folder.join("libwatcher.a");
    println!("cargo:rerun-if-env-changed=WATCHER_LIB");
    println!("cargo:rerun-if-changed={}", archive.display());
    if !archive.is_file() {
        let place = folder.canonicalize().unwrap_or(folder);
        let why = match named {
            Some(_) => "the folder that the environment variable WATCHER_LIB names",
            None => {
                "where this crate looks unless the environment variable WATCHER_LIB names a folder"
            }
        };
        eprintln!("The library is missing: libwatcher.a is not in");
        eprintln!("    {}", place.display());
        eprintln!("({why}).");
        eprintln!("Build it in the repository with `tools/library`, or install it with");
        eprintln!("`make install PREFIX=DIR` and set WATCHER_LIB=DIR/lib.");
        exit(1);
    }
    println!("cargo:rustc-link-search=native={}", folder.display());
    println!("cargo:rustc-link-lib=static=watcher");
}
