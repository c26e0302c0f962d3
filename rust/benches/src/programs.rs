//! The programs on lines as processes: their start, their reading from a file and their writing are timed.

use std::fs::{self, File};
use std::path::{Path, PathBuf};
use std::process::{Command, Stdio};
use std::{env, process};

use compare::inputs::{self, Random};

use compare::loaded::judge_page;

use crate::race::{Call, Race, race_programs};

/// Frames of n digits: rooms, random walks and walks with take-backs as operations, and as many random frames of the kind given.
fn frames(count: u32, n: usize, turns: u8) -> Vec<u8> {
    let mut random = Random(5);
    let mut input = Vec::new();
    for i in 0..count {
        let (kind, digits) = match i % 4 {
            0 => (0, inputs::room(n, &mut random)),
            1 => (0, inputs::wander(n, &mut random)),
            2 => (0, inputs::hesitant(n, 30, 0, &mut random)),
            _ => (turns, inputs::wander(n, &mut random)),
        };
        input.extend(inputs::frame(kind, &digits));
        input.push(b'\n');
    }
    input
}

/// A run of the program, with the word that says what it does, on the file.
fn run<'a>((program, word): (&'a Path, &'a [&'a str]), input: &'a Path) -> Call<'a> {
    Box::new(move || {
        let status = Command::new(program)
            .args(word)
            .stdin(File::open(input).expect("it was written"))
            .stdout(Stdio::null())
            .status();
        assert!(status.expect("the program is there").success());
    })
}

/// What the program writes for the file.
fn output((program, word): (&Path, &[&str]), input: &Path) -> Vec<u8> {
    let output = Command::new(program)
        .args(word)
        .stdin(File::open(input).expect("it was written"))
        .output();
    output.expect("the program is there").stdout
}

/// The folder of this program, in which the twins are, and the pages.
fn own_folder() -> PathBuf {
    let own = env::current_exe().expect("it is running");
    own.parent().expect("a file is in a folder").to_owned()
}

/// Races these programs on this input, after a look whether they write the same.
fn race_on(input: &[u8], programs: &[(&'static str, PathBuf, &[&str])]) -> Race {
    let file = env::temp_dir().join(format!("undrwyth-frames-{}", process::id()));
    fs::write(&file, input).expect("the temporary folder takes a file");
    let outputs: Vec<_> = programs
        .iter()
        .map(|(_, program, word)| output((program, word), &file))
        .collect();
    assert!(outputs.windows(2).all(|two| two[0] == two[1]));
    let race = race_programs(
        programs
            .iter()
            .map(|(name, program, word)| (*name, run((program, word), &file)))
            .collect(),
    );
    fs::remove_file(&file).expect("it was written");
    race
}

/// Prints the rows of a program beside its twin, and beside its page if it has one, on frames. Every fourth is of the given kind.
fn print_one(name: &str, row: &str, turns: u8) {
    let target = concat!(env!("CARGO_MANIFEST_DIR"), "/../../target");
    let program = PathBuf::from(target)
        .join(env::consts::ARCH)
        .join("undrwyth");
    let word = [name];
    let mut programs = vec![
        ("proved", program, &word[..]),
        ("twin", own_folder().join(format!("{name}_twin")), &[]),
    ];
    if name == "judge" {
        programs.extend(judge_page(&own_folder()).map(|page| ("page", page, &[][..])));
    }
    for (count, n) in [(20_000, 64), (5_000, 256)] {
        let input = frames(count, n, turns);
        let times = race_on(&input, &programs);
        times.print(&format!("{row}/{n}"), |s| input.len() as f64 / 1e6 / s);
        times.print_row(&format!("{row}/{n} in 1,000 lines/s"), |s| {
            f64::from(count) / 1e3 / s
        });
    }
}

/// Races `judge` of two builds, in these folders, the page and the twin on frames of n digits; gives the digits too.
pub fn judge_beside(before: &Path, after: &Path, n: usize) -> (Race, f64) {
    let count = 320_000 / n;
    let word = ["judge"];
    let mut programs = vec![
        ("after", after.join("undrwyth"), &word[..]),
        ("before", before.join("undrwyth"), &word[..]),
    ];
    programs.extend(judge_page(&own_folder()).map(|page| ("page", page, &[][..])));
    programs.push(("twin", own_folder().join("judge_twin"), &[]));
    let race = race_on(&frames(count as u32, n, 0), &programs);
    (race, (n * count) as f64)
}

/// Prints the rows of each program.
pub fn print() {
    print_one("judge", "line", 0);
    print_one("convert", "convert", 1);
    print_one("rows", "list", 0);
    print_one("polygons", "sheet", 0);
}
