//! The quadtree in plain Rust against `plain`.

use compare::TWIN as LIBRARY;

/// All walks of at most this many operations are compared.
const LONGEST: u32 = 6;
/// Rounds of random calls.
const ROUNDS: usize = 100;

#[path = "all/mod.rs"]
mod all;

#[test]
fn program() {
    let run = |input: &[u8]| {
        let mut output = Vec::new();
        twin::program(input, &mut output).unwrap();
        output
    };
    compare::suite::program(run, plain::program, 40, &mut compare::inputs::Random(5));
}

#[test]
fn converter() {
    let run = |input: &[u8]| {
        let mut output = Vec::new();
        twin::converter(input, &mut output).unwrap();
        output
    };
    compare::suite::program(run, plain::converter, 40, &mut compare::inputs::Random(6));
}

#[test]
fn rows() {
    let run = |input: &[u8]| {
        let mut output = Vec::new();
        twin::rows_program(input, &mut output).unwrap();
        output
    };
    compare::suite::program(
        run,
        plain::rows_program,
        40,
        &mut compare::inputs::Random(7),
    );
}

#[test]
fn polygons() {
    let run = |input: &[u8]| {
        let mut output = Vec::new();
        twin::sheet(input, &mut output).unwrap();
        output
    };
    compare::suite::program(run, plain::sheet, 40, &mut compare::inputs::Random(8));
}

/// The rooms of the benchmarks are rooms of the length asked.
#[test]
fn benched_rooms() {
    let mut random = compare::inputs::Random(3);
    for n in [8, 64, 1_024, 16_384] {
        for steps in [
            compare::inputs::room(n, &mut random),
            compare::inputs::grown(n, &mut random),
            compare::inputs::closed_spiral(n),
            compare::inputs::closed_comb(n, 30),
        ] {
            let (mut marks, mut chain) = (vec![0; 3 * n], vec![0; n]);
            let mut table = vec![0; answer::RECORD_WORDS * 4 * n];
            let facts = twin::walk((0, 0), &steps, &mut table, &mut marks, &mut chain).unwrap();
            assert_eq!(facts.verdict, answer::Verdict::Room);
            assert_eq!(facts.steps, n as u32);
        }
    }
}
