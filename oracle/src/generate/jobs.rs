//! Jobs for the program `lane`, good and damaged.

use crate::job::{self, LIMITS};
use crate::path::smoothing::SmoothingTolerance;
use crate::random::Random;
use crate::request::{self, Request};

/// The bytes of a job: half as they should be, half damaged.
pub fn draw(r: &mut Random) -> Vec<u8> {
    let request = match r.below(10) {
        0 | 1 => request::small_lane(r),
        2 | 3 => request::long_lane(r),
        4 => request::near_refusal(r, 14),
        5 | 6 => request::near_refusal(r, 17),
        7 => request::near_refusal(r, 1),
        _ => request::draw(r),
    };
    let bytes = within_limits(r, &request);
    if r.chance(50) {
        return bytes;
    }
    damaged(r, bytes)
}

/// The job of a request, with as many axes and waypoints as the limits allow.
fn within_limits(r: &mut Random, request: &Request) -> Vec<u8> {
    let (d, n) = (request.d.min(LIMITS[0]), request.n.min(LIMITS[1]));
    let config = &request.config;
    let tolerance = match &config.tolerance {
        SmoothingTolerance::Uniform(x) => *x,
        SmoothingTolerance::PerAxis(list) => list.first().copied().unwrap_or(1.),
    };
    let points: Vec<_> = (0..d * n)
        .map(|i| request.points[i / d * request.d + i % d])
        .collect();
    let counts = [
        d,
        n,
        config.max_refinements.min(LIMITS[2]),
        config
            .max_segments
            .min(r.pick(&[LIMITS[3], LIMITS[3], 60, 20])),
    ];
    job::write(counts, tolerance, &points)
}

/// The same bytes with one or two faults.
fn damaged(r: &mut Random, mut bytes: Vec<u8>) -> Vec<u8> {
    for _ in 0..r.between(1, 2) {
        match r.below(12) {
            0 => bytes.truncate(r.below(bytes.len() + 1)),
            1 => bytes.truncate(bytes.len() - r.below(bytes.len().min(9) + 1)),
            2 => {
                let more = r.between(1, 9);
                bytes.extend((0..more).map(|_| 0));
            }
            3 => {
                let more = r.pick(&[1, 8, 1600, 1621, 5000]);
                bytes.extend((0..more).map(|i| i as u8));
            }
            4 => {
                if let Some(place) = r.below(bytes.len().max(1)).checked_rem(bytes.len()) {
                    bytes[place] ^= 1 << r.below(8);
                }
            }
            5 => {
                let place = r.below(bytes.len().min(5) + 1);
                bytes.insert(
                    place,
                    r.pick(&[0, 1, 2, 3, 100, 101, 127, 128, 129, 200, 255]),
                );
            }
            6..=8 => bytes = with_counts(r, &bytes),
            9 => {
                let length = r.below(40);
                bytes = (0..length).map(|_| r.next() as u8).collect();
            }
            10 => bytes = bytes.repeat(2),
            _ => {
                if bytes.len() > 12 {
                    let number = r.between(1, (bytes.len() - 4) / 8) * 8;
                    let place = bytes.len() - number;
                    bytes[place..place + 8].copy_from_slice(&r.float().to_le_bytes());
                }
            }
        }
    }
    bytes
}

/// The same numbers behind other counts: next to the limits, large, with padding or with a fourth
/// group.
fn with_counts(r: &mut Random, bytes: &[u8]) -> Vec<u8> {
    let numbers = bytes.len() / 8 * 8;
    let mut changed = Vec::new();
    for limit in LIMITS {
        match r.below(12) {
            0 => job::write_count(&mut changed, limit + 1),
            1 => job::write_count(&mut changed, r.pick(&[127, 128, 16_383, 16_384, 2_097_151])),
            2 => {
                job::write_count(&mut changed, r.pick(&[1, 128]));
                *changed.last_mut().expect("a group") += 128;
                changed.push(0);
            }
            3 => changed.extend([129, 128, 128, 1]),
            4 => job::write_count(&mut changed, limit),
            _ => job::write_count(&mut changed, r.below(limit + 1)),
        }
    }
    changed.extend(&bytes[bytes.len() - numbers..]);
    changed
}
