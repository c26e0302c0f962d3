//! The pages of rust/page against `plain`, if there is a g++ that compiles them.

use std::io::{Write, stderr};
use std::path::Path;
use std::process::{Command, Stdio};
use std::sync::LazyLock;

use compare::inputs::Random;
use compare::{Library, loaded, suite};

/// All walks of at most this many operations are compared.
const LONGEST: u32 = 5;
/// Rounds of random calls.
const ROUNDS: usize = 30;

/// Whether there are pages.
static THERE: LazyLock<bool> = LazyLock::new(|| {
    let there = loaded::pages(Path::new(env!("CARGO_TARGET_TMPDIR"))).is_some();
    if !there {
        // It is written past the test's own output, which nobody sees if it passes.
        let _ = stderr().write_all(b"g++ is not there: the pages are not compared\n");
    }
    there
});

/// Compares the pages, if they are there.
fn compare(by: impl Fn(&Library)) {
    if *THERE {
        by(&loaded::PAGE);
    }
}

#[test]
fn short_walks() {
    compare(|page| suite::short_walks(page, LONGEST));
}

#[test]
fn short_chains() {
    compare(|page| suite::short_chains(page, LONGEST + 1));
}

#[test]
fn bytes_and_sizes() {
    compare(suite::every_byte);
    compare(suite::sizes);
    compare(suite::limits);
}

#[test]
fn rooms() {
    compare(suite::rooms);
    compare(suite::boxes);
    compare(suite::outlines);
}

#[test]
fn convex_rooms() {
    compare(|page| suite::convex_rooms(page, 12));
}

#[test]
fn overlays() {
    compare(|page| suite::overlays(page, LONGEST as usize));
}

#[test]
fn files_and_lines() {
    compare(suite::files);
    compare(suite::lines);
}

#[test]
fn starts() {
    compare(|page| suite::starts(page, LONGEST / 3));
}

#[test]
fn random_calls() {
    let rounds = |page: &Library| {
        let mut random = Random(1);
        (0..ROUNDS).for_each(|_| suite::random_calls(page, &mut random));
    };
    compare(rounds);
}

#[test]
fn program() {
    let Some(judge) = loaded::judge_page(Path::new(env!("CARGO_TARGET_TMPDIR"))) else {
        return;
    };
    let run = |input: &[u8]| {
        let mut program = Command::new(&judge)
            .stdin(Stdio::piped())
            .stdout(Stdio::piped())
            .spawn()
            .expect("it was compiled");
        let mut stdin = program.stdin.take().unwrap();
        std::thread::scope(|scope| {
            scope.spawn(move || stdin.write_all(input).unwrap());
            program.wait_with_output().unwrap().stdout
        })
    };
    suite::program(run, plain::program, 40, &mut Random(5));
}
