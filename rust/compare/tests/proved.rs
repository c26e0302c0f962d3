//! The proved library, and the proved programs, against `plain`.

use std::io::Write;
use std::process::{Command, Stdio};

use answer::{Facts, OrthogonalHull, Overlaid, PairFacts, Refusal};
use compare::PROVED as LIBRARY;
use compare::inputs::{self, Random};
use compare::suite;

/// All walks of at most this many operations are compared.
const LONGEST: u32 = 8;
/// Rounds of random calls.
const ROUNDS: usize = 1_000;

#[path = "all/mod.rs"]
mod all;

/// The safe wrapper decodes what the boundary answers.
#[test]
fn wrapper() {
    type Walk = fn((i32, i32), &[u8], &mut [u32], &mut [u32], &mut [u8]) -> Result<Facts, Refusal>;
    let mut random = Random(2);
    for _ in 0..2_000 {
        let (start, ops) = (inputs::start(&mut random), inputs::walk(100, &mut random));
        let n = ops.len();
        let walked = |walk: Walk| {
            walk(
                start,
                &ops,
                &mut [0; 25 * 60],
                &mut vec![0; 3 * n],
                &mut vec![0; n],
            )
        };
        assert_eq!(walked(undrwyth::walk), walked(plain::walk));
        type WalkTwo = fn(
            compare::Starts,
            &[u8],
            &mut [u32],
            &mut [u32],
            [&mut [u8]; 2],
        ) -> Result<PairFacts, Refusal>;
        let (starts, both) = inputs::pair(100, &mut random);
        let shared = |walk_two: WalkTwo| {
            let n = both.len();
            let (mut first, mut second) = (vec![0; n], vec![0; n]);
            walk_two(
                starts,
                &both,
                &mut [0; 36 * 60],
                &mut vec![0; 3 * n],
                [&mut first, &mut second],
            )
        };
        assert_eq!(shared(undrwyth::walk_two), shared(plain::walk_two));
        let listed = |hull: fn((i32, i32), &[u8], &mut [i32]) -> _| hull(start, &ops, &mut [0; 20]);
        assert_eq!(listed(undrwyth::hull), listed(plain::hull));
        let outlined =
            |outline: fn((i32, i32), &[u8], &mut [u8]) -> _| outline(start, &ops, &mut [0; 100]);
        assert_eq!(outlined(undrwyth::outline), outlined(plain::outline));
        let drawn = |polygon: fn((i32, i32), &[u8], &mut [u8]) -> _| {
            polygon((n as i32, -1), &ops, &mut [0; 300])
        };
        assert_eq!(
            drawn(undrwyth::polygon_of_room),
            drawn(plain::polygon_of_room)
        );
        let laid =
            |rows: fn((i32, i32), &[u8], &mut [i32]) -> _| rows((n as i32, -1), &ops, &mut [0; 90]);
        assert_eq!(laid(undrwyth::rows), laid(plain::rows));
        assert_eq!(
            undrwyth::convex((n as i32, -1), &ops),
            plain::convex((n as i32, -1), &ops)
        );
        type Orthogonal = fn((i32, i32), &[u8], u32, &mut [u8]) -> Result<OrthogonalHull, Refusal>;
        for grid in 0..4 {
            let round = |hull: Orthogonal| hull((n as i32, -1), &ops, grid, &mut [0; 60]);
            assert_eq!(
                round(undrwyth::orthogonal_hull),
                round(plain::orthogonal_hull)
            );
        }
        type Overlay =
            fn(compare::Room, compare::Room, [&mut [i32]; 3]) -> Result<Overlaid, Refusal>;
        let over = |overlay: Overlay| {
            let (one, other) = (
                ((n as i32, -1), &ops[..]),
                ((n as i32, 0), &[0, 1, 2, 3][..]),
            );
            overlay(one, other, [&mut [0; 90], &mut [0; 3], &mut [0; 3]])
        };
        assert_eq!(over(undrwyth::overlay), over(plain::overlay));
        let file = inputs::file(100, &mut random);
        let read = |chain: fn(&[u8], &mut [u8]) -> _| chain(&file, &mut [0; 90]);
        assert_eq!(
            read(undrwyth::chain_of_polygon),
            read(plain::chain_of_polygon)
        );
        let turned = |convert: fn(&[u8], &mut [u8]) -> _| convert(&ops, &mut vec![0; n]);
        assert_eq!(
            turned(undrwyth::turns_of_steps),
            turned(plain::turns_of_steps)
        );
        assert_eq!(
            turned(undrwyth::steps_of_turns),
            turned(plain::steps_of_turns)
        );
    }
}

#[test]
fn program() {
    suite::program(
        |input| run("judge", input),
        plain::program,
        100,
        &mut Random(5),
    );
}

#[test]
fn converter() {
    suite::program(
        |input| run("convert", input),
        plain::converter,
        100,
        &mut Random(6),
    );
}

#[test]
fn rows() {
    suite::program(
        |input| run("rows", input),
        plain::rows_program,
        100,
        &mut Random(7),
    );
}

#[test]
fn polygons() {
    suite::program(
        |input| run("polygons", input),
        plain::sheet,
        100,
        &mut Random(8),
    );
}

/// The output of a program for this input.
fn run(name: &str, input: &[u8]) -> Vec<u8> {
    let mut program = Command::new(concat!(env!("CARGO_MANIFEST_DIR"), "/../../undrwyth"))
        .arg(name)
        .stdin(Stdio::piped())
        .stdout(Stdio::piped())
        .spawn()
        .expect("the script is there");
    let mut stdin = program.stdin.take().unwrap();
    std::thread::scope(|scope| {
        scope.spawn(move || stdin.write_all(input).unwrap());
        let output = program.wait_with_output().unwrap();
        assert!(output.status.success());
        output.stdout
    })
}
