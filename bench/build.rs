//! Links the archive that ED2K_ARCHIVE names, or the one that a build of the Rust crate made in the
//! repository.

use std::path::PathBuf;
use std::{env, fs};

fn main() {
    println!("cargo:rerun-if-env-changed=ED2K_ARCHIVE");
    let made = || PathBuf::from(env!("CARGO_MANIFEST_DIR")).join("../target/staticlib/libed2k.a");
    let archive = env::var_os("ED2K_ARCHIVE").map_or_else(made, PathBuf::from);
    println!("cargo:rerun-if-changed={}", archive.display());
    let folder = PathBuf::from(env::var_os("OUT_DIR").expect("cargo sets OUT_DIR"));
    if let Err(error) = fs::copy(&archive, folder.join("libed2k_proved.a")) {
        let archive = archive.display();
        panic!("the archive {archive} cannot be read ({error}); `cargo build` in rust/ makes it");
    }
    println!("cargo:rustc-link-search=native={}", folder.display());
    println!("cargo:rustc-link-lib=static=ed2k_proved");
}
