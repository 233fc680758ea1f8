//! Compiles the unchanged source as the oracle does, with `src/appendix.rs` after the oracle's, and links
//! the proved functions: `./build.sh pamitoye` and `./build.sh leaf_exports` write the archives. `boost.cpp` is
//! compiled where there are a C++ compiler and Boost's headers (Debian's libboost-dev); elsewhere it is left out. `heights.c` is
//! compiled at two levels of optimisation.
#[path = "../oracle/build.rs"]
#[allow(dead_code)]
mod source;

fn main() {
    source::compile(&["../oracle/src/appendix.rs", "src/appendix.rs"]);
    let folder = std::path::Path::new(env!("CARGO_MANIFEST_DIR")).join("../target/staticlib");
    println!("cargo::rustc-link-search=native={}", folder.display());
    for name in ["pamitoye", "leaf_exports"] {
        let archive = folder.join(format!("lib{name}.a"));
        println!("cargo::rerun-if-changed={}", archive.display());
        println!("cargo::rustc-link-lib=static={name}");
    }
    boost();
    for level in ["2", "3"] {
        heights(level);
    }
}

/// Compiles `boost.cpp`; the configuration `boost` says that it is there.
fn boost() {
    println!("cargo::rustc-check-cfg=cfg(boost)");
    println!("cargo::rerun-if-changed=boost.cpp");
    println!("cargo::rerun-if-env-changed=CXX");
    let object = std::path::Path::new(&std::env::var("OUT_DIR").unwrap()).join("boost.o");
    let compiler = std::env::var("CXX").unwrap_or("c++".to_string());
    let done = std::process::Command::new(compiler)
        .args([
            "-std=c++17",
            "-O3",
            "-frounding-math",
            "-c",
            "boost.cpp",
            "-o",
        ])
        .arg(&object)
        .status();
    if done.is_ok_and(|status| status.success()) {
        println!("cargo::rustc-link-arg-bins={}", object.display());
        println!("cargo::rustc-link-arg-bins=-lstdc++");
        println!("cargo::rustc-cfg=boost");
    } else {
        println!("cargo::warning=no C++ compiler or no Boost.Interval: it is skipped");
    }
}

/// Compiles `heights.c`; its function's name ends in the level of optimisation.
fn heights(level: &str) {
    println!("cargo::rerun-if-changed=heights.c");
    println!("cargo::rerun-if-env-changed=CC");
    let folder = std::env::var("OUT_DIR").unwrap();
    let object = std::path::Path::new(&folder).join(format!("heights{level}.o"));
    let compiler = std::env::var("CC").unwrap_or("cc".to_string());
    let done = std::process::Command::new(compiler)
        .args(["-std=c11", "-ffp-contract=off", "-I../include", "-c"])
        .args([
            format!("-O{level}"),
            format!("-DHEIGHTS=plain_heights_{level}"),
        ])
        .args(["heights.c", "-o"])
        .arg(&object)
        .status();
    assert!(done.is_ok_and(|status| status.success()), "heights.c");
    println!("cargo::rustc-link-arg-bins={}", object.display());
    println!("cargo::rustc-link-arg-bins=-lm");
}
