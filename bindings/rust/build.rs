//! Links the proved library: `libpamitoye.a` in the folder that `PAMITOYE_LIB_DIR` names, or else in
//! `target/staticlib` of the repository, where `./build.sh pamitoye` writes it.

use std::env;
use std::path::{Path, PathBuf};

fn main() {
    println!("cargo::rerun-if-env-changed=PAMITOYE_LIB_DIR");
    let folder = env::var_os("PAMITOYE_LIB_DIR").map_or_else(
        || Path::new(env!("CARGO_MANIFEST_DIR")).join("../../target/staticlib"),
        PathBuf::from,
    );
    let archive = folder.join("libpamitoye.a");
    println!("cargo::rerun-if-changed={}", archive.display());
    if !archive.is_file() {
        println!(
            "cargo::error={} is missing: run `./build.sh pamitoye` in the repository's root, \
             or name the archive's folder in PAMITOYE_LIB_DIR",
            archive.display()
        );
        return;
    }
    println!("cargo::rustc-link-search=native={}", folder.display());
    println!("cargo::rustc-link-lib=static=pamitoye");
}
