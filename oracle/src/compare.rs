//! A program `lane` compared with the source on generated jobs.

use crate::generate::jobs;
use crate::job;
use crate::random::Random;
use std::collections::BTreeMap;
use std::fmt::Write as _;
use std::io::Write;
use std::process::{Command, Stdio};

/// Runs the program on `count` jobs drawn from `seed`: how many end in each answer, and that none
/// differs.
pub fn compare(program: &str, seed: u64, count: usize) -> Result<String, String> {
    let mut r = Random::new(seed);
    let mut ends = BTreeMap::new();
    for i in 0..count {
        let bytes = jobs::draw(&mut r);
        let expected = job::print(&bytes);
        let text = run(program, &bytes).map_err(|e| format!("{program}: {e}"))?;
        if text != expected.as_bytes() {
            let text = String::from_utf8_lossy(&text);
            return Err(format!(
                "job {i} of seed {seed}, {bytes:02X?}: {expected:?} expected, {text:?} printed"
            ));
        }
        *ends.entry(end_of(&expected)).or_insert(0) += 1;
    }
    let mut text = format!("seed {seed}, {count} jobs, 0 differences\n");
    for (end, count) in ends {
        writeln!(text, "{:10}  {count:6}", end.1).unwrap();
    }
    Ok(text)
}

/// What the program writes to standard output when it is given these bytes.
fn run(program: &str, bytes: &[u8]) -> std::io::Result<Vec<u8>> {
    let mut child = Command::new(program)
        .stdin(Stdio::piped())
        .stdout(Stdio::piped())
        .spawn()?;
    // The program reads no more than it needs, so the pipe may be closed early.
    let _ = child.stdin.take().expect("a pipe").write_all(bytes);
    child.wait_with_output().map(|output| output.stdout)
}

/// The first words of an answer, with the number of the refusal to sort by.
fn end_of(text: &str) -> (usize, String) {
    let mut words = text.split_whitespace();
    match (words.next(), words.next()) {
        (Some("refused"), Some(number)) => (
            number.parse().expect("a number"),
            format!("refused {number}"),
        ),
        _ => (0, "accepted".to_string()),
    }
}
