//! Compiles the unchanged `smoothing.rs` and answers cases with it, so that a port
//! can be compared bit for bit. README.md describes the cases and the commands.

// `smoothing.rs` says `use nalgebra::DMatrixView`: this crate stands in for nalgebra.
extern crate self as nalgebra;
pub(crate) use standin::DMatrixView;

mod answer;
mod case;
mod certificate;
mod compare;
mod generate;
mod handed;
mod job;
mod list;
mod port;
mod query;
mod random;
mod refusal;
mod request;
mod returned;
mod spacing;
mod standin;
mod table;
#[cfg(test)]
mod tests;

/// Where `smoothing.rs` looks for its error.
mod diag {
    pub(crate) use crate::standin::PathError;
}

/// The module that `smoothing.rs` belongs to.
mod path {
    pub(crate) use crate::standin::OutOfRangeMode;
    include!(concat!(env!("OUT_DIR"), "/load.rs"));
}

use case::Case;
use random::Random;
use std::io::{Read, Write};
use std::process::ExitCode;

const HELP: &str = "\
oracle answer < LIST > TEXT        one line for each case of the list
oracle list FILE > LIST            the cases of a recipe: lines NAME SEED COUNT
oracle requests SEED COUNT > LIST  generated requests as cases of kind build
oracle table SEED COUNT            how many generated requests each refusal has
oracle job < JOB > TEXT            what the program `lane` prints for a job
oracle lane PROGRAM SEED COUNT     runs the program on generated jobs, and compares
oracle help
";

fn main() -> ExitCode {
    let arguments: Vec<String> = std::env::args().skip(1).collect();
    let arguments: Vec<&str> = arguments.iter().map(String::as_str).collect();
    let output = match arguments[..] {
        ["answer"] => answer(),
        ["list", file] => recipe(file).map(|cases| list::write(&cases)),
        ["requests", seed, count] => {
            two_numbers(seed, count).map(|(seed, count)| list::write(&requests(seed, count)))
        }
        ["table", seed, count] => {
            two_numbers(seed, count).map(|(seed, count)| table::table(seed, count).into_bytes())
        }
        ["job"] => input().map(|bytes| job::print(&bytes).into_bytes()),
        ["lane", program, seed, count] => two_numbers(seed, count)
            .and_then(|(seed, count)| compare::compare(program, seed, count))
            .map(String::into_bytes),
        ["help"] => Ok(help().into_bytes()),
        _ => Err(format!("no such command\n\n{}", help())),
    };
    let written = output.and_then(|bytes| {
        let mut out = std::io::stdout().lock();
        out.write_all(&bytes).map_err(|e| e.to_string())
    });
    match written {
        Ok(()) => ExitCode::SUCCESS,
        Err(message) => {
            eprintln!("oracle: {message}");
            ExitCode::FAILURE
        }
    }
}

fn help() -> String {
    let names: Vec<_> = generate::names().collect();
    format!("{HELP}\nnames: {}\n", names.join(" "))
}

/// All of standard input.
fn input() -> Result<Vec<u8>, String> {
    let mut bytes = Vec::new();
    let read = std::io::stdin().read_to_end(&mut bytes);
    read.map(|_| bytes).map_err(|e| e.to_string())
}

/// Answers the list on standard input.
fn answer() -> Result<Vec<u8>, String> {
    let bytes = input()?;
    let mut text = String::new();
    for (i, case) in list::read(&bytes)?.iter().enumerate() {
        let answer = answer::answer(case).map_err(|e| format!("case {i}: {e}"))?;
        text.push_str(&answer.line(case.kind));
        text.push('\n');
    }
    Ok(text.into_bytes())
}

/// The cases of a recipe file. Blank lines and lines that begin with `#` are passed over.
fn recipe(file: &str) -> Result<Vec<Case>, String> {
    let text = std::fs::read_to_string(file).map_err(|e| format!("{file}: {e}"))?;
    let mut cases = Vec::new();
    for (i, line) in text.lines().enumerate() {
        let words: Vec<_> = line.split_whitespace().collect();
        let group = match words[..] {
            [] => continue,
            [first, ..] if first.starts_with('#') => continue,
            [name, seed, count] => two_numbers(seed, count)
                .and_then(|(seed, count)| generate::group(name, seed, count)),
            _ => Err("NAME SEED COUNT wanted".to_string()),
        };
        cases.extend(group.map_err(|e| format!("{file}, line {}: {e}", i + 1))?);
    }
    Ok(cases)
}

/// Generated requests, as cases of kind `build`.
fn requests(seed: u64, count: usize) -> Vec<Case> {
    let mut r = Random::new(seed);
    (0..count)
        .map(|_| Case::build(&request::draw_any(&mut r)))
        .collect()
}

fn two_numbers(seed: &str, count: &str) -> Result<(u64, usize), String> {
    match (seed.parse(), count.parse()) {
        (Ok(seed), Ok(count)) => Ok((seed, count)),
        _ => Err(format!("{seed} {count}: two whole numbers wanted")),
    }
}
