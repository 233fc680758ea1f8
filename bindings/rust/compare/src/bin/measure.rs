//! Queries, builds and memory of the crate against the unchanged source: `cargo run --release --offline -p compare`.

#[cfg(smoothing_source)]
#[global_allocator]
static COUNTING: compare::memory::Counting = compare::memory::Counting;

#[cfg(smoothing_source)]
fn main() {
    compare::measure::queries();
    compare::measure::builds();
}

#[cfg(not(smoothing_source))]
fn main() {
    println!("skipped: the source is not at hand");
}

/// Stands where the comparison would.
#[cfg(all(test, not(smoothing_source)))]
#[test]
#[ignore = "skipped: the source is not at hand, nothing is compared"]
fn compared_with_the_source() {}
