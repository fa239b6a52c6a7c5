//! Links `liboof_c.a` from the folder OOF_LIB, or from `target/staticlib` of the repository (`tools/staticlib` puts it there).
//! `cargo check` and `cargo doc` need no library, so that one that isn't there is a warning; a program then doesn't link.
use std::{env, path::PathBuf};

fn main() {
    println!("cargo:rerun-if-env-changed=OOF_LIB");
    let here = PathBuf::from(env::var_os("CARGO_MANIFEST_DIR").unwrap());
    let folder = env::var_os("OOF_LIB").map_or_else(|| here.join("../../target/staticlib"), PathBuf::from);
    let archive = folder.join("liboof_c.a");
    println!("cargo:rerun-if-changed={}", archive.display());
    if !archive.is_file() {
        println!(
            "cargo:warning={} is not there: run `tools/staticlib`, or set OOF_LIB to the folder of liboof_c.a",
            archive.display()
        );
        return;
    }
    println!("cargo:rustc-link-search=native={}", folder.display());
    println!("cargo:rustc-link-lib=static=oof_c");
}
