//! How many generated requests end in each refusal, and how many are accepted; for 26 what the source gives them,
//! 0 where it accepts.

use crate::path::smoothing::reach;
use crate::random::Random;
use crate::refusal::Refusal;
use crate::request;
use std::fmt::Write;

/// The table for `count` requests drawn from `seed`.
pub fn table(seed: u64, count: usize) -> String {
    let mut r = Random::new(seed);
    let mut refused = [0; 27];
    let (mut linear, mut fitted, mut refined) = (0, 0, 0);
    let mut too_fine = [0; 18];
    for _ in 0..count {
        let request = request::draw_any(&mut r);
        match request.answer() {
            Ok(built) => {
                let [_, _, refinements, fitting_rows, _] = built.counts;
                linear += usize::from(fitting_rows == 0);
                fitted += usize::from(fitting_rows > 0);
                refined += usize::from(refinements > 0);
            }
            Err(refusal) => {
                refused[refusal.number] += 1;
                if refusal.number == 26 {
                    let end = reach::build(&request);
                    too_fine[end.map_or_else(|e| Refusal::from(e).number, |_| 0)] += 1;
                }
            }
        }
    }
    let mut text = format!("seed {seed}, {count} requests\n");
    for number in (1..=17).chain([26]) {
        writeln!(text, "refused {number:2}  {:6}", refused[number]).unwrap();
    }
    for (number, count) in too_fine.iter().enumerate().filter(|c| *c.1 > 0) {
        writeln!(text, "  {number:2} in the source            {count:6}").unwrap();
    }
    writeln!(text, "accepted    {:6}", linear + fitted).unwrap();
    writeln!(text, "  linear (no fitting rows)  {linear:6}").unwrap();
    writeln!(text, "  with fits                 {fitted:6}").unwrap();
    writeln!(text, "  with refinements          {refined:6}").unwrap();
    text
}
