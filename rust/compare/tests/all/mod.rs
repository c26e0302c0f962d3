//! The comparisons of one library, each a test.

use compare::inputs::Random;
use compare::suite;

use super::{LIBRARY, LONGEST, ROUNDS};

#[test]
fn short_walks() {
    suite::short_walks(&LIBRARY, LONGEST);
}

#[test]
fn short_chains() {
    suite::short_chains(&LIBRARY, LONGEST + 1);
}

#[test]
fn every_byte() {
    suite::every_byte(&LIBRARY);
}

#[test]
fn sizes() {
    suite::sizes(&LIBRARY);
}

#[test]
fn limits() {
    suite::limits(&LIBRARY);
}

#[test]
fn rooms() {
    suite::rooms(&LIBRARY);
}

#[test]
fn boxes() {
    suite::boxes(&LIBRARY);
}

#[test]
fn outlines() {
    suite::outlines(&LIBRARY);
}

#[test]
fn convex_rooms() {
    suite::convex_rooms(&LIBRARY, 2 * LONGEST as usize);
}

#[test]
fn orthogonal_hulls() {
    suite::orthogonal_hulls(&LIBRARY, 2 * LONGEST as usize);
}

#[test]
fn overlays() {
    suite::overlays(&LIBRARY, LONGEST as usize);
}

#[test]
fn short_pairs() {
    suite::short_pairs(&LIBRARY, LONGEST - 3);
}

#[test]
fn pair_bytes() {
    suite::pair_bytes(&LIBRARY);
}

#[test]
fn pair_limits() {
    suite::pair_limits(&LIBRARY);
}

#[test]
fn pair_starts() {
    suite::pair_starts(&LIBRARY);
}

#[test]
fn lobbies() {
    suite::lobbies(&LIBRARY);
}

#[test]
fn files() {
    suite::files(&LIBRARY);
}

#[test]
fn starts() {
    suite::starts(&LIBRARY, LONGEST / 3);
}

#[test]
fn lines() {
    suite::lines(&LIBRARY);
}

#[test]
fn random_calls() {
    let mut random = Random(1);
    for _ in 0..ROUNDS {
        suite::random_calls(&LIBRARY, &mut random);
    }
}
