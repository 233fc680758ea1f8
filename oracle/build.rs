//! Writes the text that is compiled: the source file, byte for byte, with
//! `src/appendix.rs` after it, and a one-line file that loads it as a module.
//! `../bench` and `../bindings/rust/compare` build with the same text, and one appendix more.

use std::path::{Path, PathBuf};
use std::{env, fs};

/// The source file's place, relative to this folder, unless `SMOOTHING_RS` names another.
const DEFAULT_SOURCE: &str = "../../shared/docs/src/path/smoothing.rs";

fn main() {
    compile(&["src/appendix.rs"]);
}

/// The source file with these files after it.
pub fn compile(appendices: &[&str]) {
    compile_from(DEFAULT_SOURCE, appendices);
}

/// The same where the source file's place, unless `SMOOTHING_RS` names one, is another; all are relative to the folder
/// of the crate that is built.
pub fn compile_from(place: &str, appendices: &[&str]) {
    let here = PathBuf::from(env::var("CARGO_MANIFEST_DIR").unwrap());
    let out = PathBuf::from(env::var("OUT_DIR").unwrap());
    let source = here.join(env::var("SMOOTHING_RS").unwrap_or(place.to_string()));

    let mut text = read(&source);
    for appendix in appendices {
        text.extend(read(&here.join(appendix)));
        println!("cargo::rerun-if-changed={appendix}");
    }
    let compiled = out.join("smoothing.rs");
    fs::write(&compiled, text).unwrap();
    // An included file cannot begin with `//!`, and `#[path]` takes a literal only.
    let load = format!(
        "#[path = {:?}]\n#[allow(dead_code)]\npub(crate) mod smoothing;\n",
        compiled
            .to_str()
            .expect("the target folder's name is not UTF-8"),
    );
    fs::write(out.join("load.rs"), load).unwrap();

    println!("cargo::rustc-env=SMOOTHING_SOURCE={}", source.display());
    println!("cargo::rustc-env=SMOOTHING_COMPILED={}", compiled.display());
    println!("cargo::rerun-if-env-changed=SMOOTHING_RS");
    println!("cargo::rerun-if-changed={}", source.display());
}

fn read(file: &Path) -> Vec<u8> {
    fs::read(file).unwrap_or_else(|e| {
        panic!(
            "cannot read {}: {e}; SMOOTHING_RS may name another place",
            file.display()
        )
    })
}
