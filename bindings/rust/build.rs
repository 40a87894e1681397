//! Finds the archive and has it linked: what SALENDURO_ARCHIVE names, or what `rt lib` wrote in crates/salenduro.

use std::env;
use std::path::PathBuf;
use std::process::exit;

fn main() {
    println!("cargo:rerun-if-env-changed=SALENDURO_ARCHIVE");
    // The archive is for x86-64; elsewhere the crate can be checked and documented, which links nothing.
    if env::var("CARGO_CFG_TARGET_ARCH").as_deref() != Ok("x86_64") {
        println!("cargo:warning=libsalenduro.a is for x86-64: on this processor the crate can be checked, not linked");
        return;
    }
    let named = env::var_os("SALENDURO_ARCHIVE").filter(|name| !name.is_empty());
    let archive = named.map_or_else(|| PathBuf::from("../../crates/salenduro/out/libsalenduro.a"), PathBuf::from);
    println!("cargo:rerun-if-changed={}", archive.display());
    let found = archive.canonicalize().ok().filter(|path| path.is_file());
    let Some((folder, name)) = found.as_ref().and_then(|path| path.parent().zip(path.file_name())) else {
        eprintln!("no archive at {}: run `rt lib` in crates/salenduro, or name one in SALENDURO_ARCHIVE", archive.display());
        exit(1);
    };
    println!("cargo:rustc-link-search=native={}", folder.display());
    // verbatim: the file may have any name
    println!("cargo:rustc-link-lib=static:+verbatim={}", name.to_string_lossy());
}
