//! Compiles the unchanged source as the oracle does, with the oracle's appendix and that of `bench` after it, where the
//! source is at hand. Elsewhere the crate is empty, and a warning says that nothing is compared.

#[path = "../../../oracle/build.rs"]
#[allow(dead_code)]
mod source;

use std::path::Path;

/// The source file's place, relative to this folder, unless `SMOOTHING_RS` names another.
const SOURCE: &str = "../../../../shared/docs/src/path/smoothing.rs";

fn main() {
    println!("cargo::rustc-check-cfg=cfg(smoothing_source)");
    println!("cargo::rerun-if-env-changed=SMOOTHING_RS");
    let given = std::env::var("SMOOTHING_RS").unwrap_or(SOURCE.to_string());
    if Path::new(env!("CARGO_MANIFEST_DIR")).join(&given).is_file() {
        source::compile_from(
            SOURCE,
            &[
                "../../../oracle/src/appendix.rs",
                "../../../bench/src/appendix.rs",
            ],
        );
        println!("cargo::rustc-cfg=smoothing_source");
    } else {
        println!("cargo::rerun-if-changed=build.rs");
        println!(
            "cargo::warning=skipped: {given} is not at hand; nothing is compared with the source"
        );
    }
}
