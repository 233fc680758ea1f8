//! Drawn requests: the oracle's generator, whose files look for their types and for each other in the crate's root. A test
//! takes them there with `use drawn::*`.

#[path = "../odd/mod.rs"]
pub mod odd;
pub mod path;
#[path = "../../../../oracle/src/random.rs"]
#[allow(dead_code)]
pub mod random;
#[path = "../../../../oracle/src/request.rs"]
#[allow(dead_code)]
pub mod request;
#[path = "../../../../oracle/src/spacing.rs"]
#[allow(dead_code)]
pub mod spacing;
