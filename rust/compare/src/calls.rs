//! One call of a library beside the same call of `plain`, in dirty buffers.

use std::fmt::Debug;
use std::sync::atomic::{AtomicU64, Ordering};

use answer::{
    CHAIN_ANSWER_WORDS, CONVEX_ANSWER_WORDS, HULL_ANSWER_WORDS, ORTHOGONAL_ANSWER_WORDS,
    OUTLINE_ANSWER_WORDS, OVERLAY_ANSWER_WORDS, POLYGON_ANSWER_WORDS, ROWS_ANSWER_WORDS,
    TURNS_ANSWER_WORDS, WALK_ANSWER_WORDS, WALK_TWO_ANSWER_WORDS,
};

use crate::{Convert, Library, Line, PLAIN, Room, Starts};

/// Words before and after a lent buffer that no call may touch.
const MARGIN: usize = 5;

/// A lent buffer between two margins, all of it dirty: no word is 0, and no two neighbours are the same.
struct Lent<T>(Vec<T>);

impl Lent<u8> {
    fn bytes(length: usize) -> Lent<u8> {
        Lent((0..length + 2 * MARGIN).map(|i| i as u8 | 128).collect())
    }
}

impl Lent<u32> {
    fn words(length: usize) -> Lent<u32> {
        let dirt = |i: usize| (i as u32).wrapping_mul(0x9e37_79b1) | 1 << 31;
        Lent((0..length + 2 * MARGIN).map(dirt).collect())
    }
}

impl Lent<i32> {
    fn numbers(length: usize) -> Lent<i32> {
        Lent(
            Lent::words(length)
                .0
                .into_iter()
                .map(u32::cast_signed)
                .collect(),
        )
    }
}

impl<T> Lent<T> {
    fn part(&mut self) -> &mut [T] {
        let end = self.0.len() - MARGIN;
        &mut self.0[MARGIN..end]
    }
}

/// How many words and bytes were compared.
pub static COMPARED: AtomicU64 = AtomicU64::new(0);

/// Panics, and says where they differ, unless the two are the same.
fn same<T: PartialEq + Debug>(what: &str, input: &[u8], ours: &[T], plain: &[T]) {
    if ours != plain {
        let at = ours.iter().zip(plain).position(|(a, b)| a != b).unwrap();
        panic!(
            "{what}, index {}: {:?}, plain has {:?}\ninput of {} bytes: {:?}",
            at as isize - MARGIN as isize,
            ours[at],
            plain[at],
            input.len(),
            &input[..input.len().min(2_000)],
        );
    }
    COMPARED.fetch_add(ours.len() as u64, Ordering::Relaxed);
}

/// Compares a walk in buffers of these lengths, and gives the answer.
pub fn walk(
    library: &Library,
    start: (i32, i32),
    ops: &[u8],
    table: usize,
    marks: usize,
    chain: usize,
) -> [u32; WALK_ANSWER_WORDS] {
    let run = |library: &Library| {
        let (mut table, mut marks) = (Lent::words(table), Lent::words(marks));
        let (mut chain, mut answer) = (Lent::bytes(chain), [u32::MAX; WALK_ANSWER_WORDS]);
        let (t, m, c) = (table.part(), marks.part(), chain.part());
        let number = (library.walk)(start, ops, t, m, c, &mut answer);
        ([number], answer, table.0, marks.0, chain.0)
    };
    let (ours, plain) = (run(library), run(&PLAIN));
    same("walk's number", ops, &ours.0, &plain.0);
    same("walk's answer", ops, &ours.1, &plain.1);
    same("walk's table", ops, &ours.2, &plain.2);
    same("walk's marks", ops, &ours.3, &plain.3);
    same("walk's chain", ops, &ours.4, &plain.4);
    plain.1
}

/// Compares the walks of two parties in buffers of these lengths, and gives the answer.
pub fn walk_two(
    library: &Library,
    starts: Starts,
    ops: &[u8],
    table: usize,
    marks: usize,
    chains: [usize; 2],
) -> [u32; WALK_TWO_ANSWER_WORDS] {
    let run = |library: &Library| {
        let (mut table, mut marks) = (Lent::words(table), Lent::words(marks));
        let (mut chains, mut answer) = (chains.map(Lent::bytes), [u32::MAX; WALK_TWO_ANSWER_WORDS]);
        let (t, m, c) = (
            table.part(),
            marks.part(),
            chains.each_mut().map(Lent::part),
        );
        let number = (library.walk_two)(starts, ops, t, m, c, &mut answer);
        (
            [number],
            answer,
            table.0,
            marks.0,
            chains.map(|lent| lent.0),
        )
    };
    let (ours, plain) = (run(library), run(&PLAIN));
    let what = |of: &str| format!("{of} of two parties from {starts:?}");
    same(&what("number"), ops, &ours.0, &plain.0);
    same(&what("answer"), ops, &ours.1, &plain.1);
    same(&what("table"), ops, &ours.2, &plain.2);
    same(&what("marks"), ops, &ours.3, &plain.3);
    for (ours, plain) in ours.4.iter().zip(&plain.4) {
        same(&what("a chain"), ops, ours, plain);
    }
    plain.1
}

/// Compares a hull in a buffer of this length, and gives the answer.
pub fn hull(
    library: &Library,
    start: (i32, i32),
    chain: &[u8],
    out: usize,
) -> [u32; HULL_ANSWER_WORDS] {
    let run = |library: &Library| {
        let (mut out, mut answer) = (Lent::numbers(out), [u32::MAX; HULL_ANSWER_WORDS]);
        let number = (library.hull)(start, chain, out.part(), &mut answer);
        ([number], answer, out.0)
    };
    let (ours, plain) = (run(library), run(&PLAIN));
    same("hull's number", chain, &ours.0, &plain.0);
    same("hull's answer", chain, &ours.1, &plain.1);
    same("hull's buffer", chain, &ours.2, &plain.2);
    plain.1
}

/// Compares an outline in a buffer of this length, and gives the answer.
pub fn outline(
    library: &Library,
    start: (i32, i32),
    chain: &[u8],
    out: usize,
) -> [u32; OUTLINE_ANSWER_WORDS] {
    let run = |library: &Library| {
        let (mut out, mut answer) = (Lent::bytes(out), [u32::MAX; OUTLINE_ANSWER_WORDS]);
        let number = (library.outline)(start, chain, out.part(), &mut answer);
        ([number], answer, out.0)
    };
    let (ours, plain) = (run(library), run(&PLAIN));
    same("outline's number", chain, &ours.0, &plain.0);
    same("outline's answer", chain, &ours.1, &plain.1);
    same("outline's buffer", chain, &ours.2, &plain.2);
    plain.1
}

/// Compares a room as a polygon in a buffer of this length, and gives the answer.
pub fn polygon(
    library: &Library,
    start: (i32, i32),
    chain: &[u8],
    out: usize,
) -> [u32; POLYGON_ANSWER_WORDS] {
    let run = |library: &Library| {
        let (mut out, mut answer) = (Lent::bytes(out), [u32::MAX; POLYGON_ANSWER_WORDS]);
        let number = (library.polygon_of_room)(start, chain, out.part(), &mut answer);
        ([number], answer, out.0)
    };
    let (ours, plain) = (run(library), run(&PLAIN));
    same("polygon's number", chain, &ours.0, &plain.0);
    same("polygon's answer", chain, &ours.1, &plain.1);
    same("polygon's buffer", chain, &ours.2, &plain.2);
    plain.1
}

/// Compares the rows of a room in a buffer of this length, and gives the answer.
pub fn rows(
    library: &Library,
    start: (i32, i32),
    chain: &[u8],
    out: usize,
) -> [u32; ROWS_ANSWER_WORDS] {
    let run = |library: &Library| {
        let (mut out, mut answer) = (Lent::numbers(out), [u32::MAX; ROWS_ANSWER_WORDS]);
        let number = (library.rows)(start, chain, out.part(), &mut answer);
        ([number], answer, out.0)
    };
    let (ours, plain) = (run(library), run(&PLAIN));
    same("rows' number", chain, &ours.0, &plain.0);
    same("rows' answer", chain, &ours.1, &plain.1);
    same("rows' buffer", chain, &ours.2, &plain.2);
    plain.1
}

/// Compares whether a room is convex, and gives the answer.
pub fn convex(library: &Library, start: (i32, i32), chain: &[u8]) -> [u32; CONVEX_ANSWER_WORDS] {
    let run = |library: &Library| {
        let mut answer = [u32::MAX; CONVEX_ANSWER_WORDS];
        let number = (library.convex)(start, chain, &mut answer);
        ([number], answer)
    };
    let (ours, plain) = (run(library), run(&PLAIN));
    same("convex's number", chain, &ours.0, &plain.0);
    same("convex's answer", chain, &ours.1, &plain.1);
    plain.1
}

/// Compares the orthogonal hull of a room, in blocks of this size and in a buffer of this length, and gives the answer.
pub fn orthogonal(
    library: &Library,
    start: (i32, i32),
    chain: &[u8],
    grid: u32,
    out: usize,
) -> [u32; ORTHOGONAL_ANSWER_WORDS] {
    let run = |library: &Library| {
        let (mut out, mut answer) = (Lent::bytes(out), [u32::MAX; ORTHOGONAL_ANSWER_WORDS]);
        let number = (library.orthogonal_hull)(start, chain, grid, out.part(), &mut answer);
        ([number], answer, out.0)
    };
    let (ours, plain) = (run(library), run(&PLAIN));
    let what = |of: &str| format!("{of} of the orthogonal hull from {start:?} in blocks of {grid}");
    same(&what("number"), chain, &ours.0, &plain.0);
    same(&what("answer"), chain, &ours.1, &plain.1);
    same(&what("buffer"), chain, &ours.2, &plain.2);
    plain.1
}

/// Compares two rooms laid over each other, with buffers of these lengths, and gives the answer.
pub fn overlay(
    library: &Library,
    one: Room,
    other: Room,
    out: [usize; 3],
) -> [u32; OVERLAY_ANSWER_WORDS] {
    let run = |library: &Library| {
        let (mut out, mut answer) = (out.map(Lent::numbers), [u32::MAX; OVERLAY_ANSWER_WORDS]);
        let parts = out.each_mut().map(Lent::part);
        let number = (library.overlay)(one, other, parts, &mut answer);
        ([number], answer, out.map(|lent| lent.0))
    };
    let (ours, plain) = (run(library), run(&PLAIN));
    let chains = [one.1, other.1].concat();
    same("overlay's number", &chains, &ours.0, &plain.0);
    same("overlay's answer", &chains, &ours.1, &plain.1);
    for (ours, plain) in ours.2.iter().zip(&plain.2) {
        same("a buffer of overlay", &chains, ours, plain);
    }
    plain.1
}

/// Compares a polygon that is read, with a chain buffer of this length, and gives the answer.
pub fn chain(library: &Library, file: &[u8], chain: usize) -> [u32; CHAIN_ANSWER_WORDS] {
    let run = |library: &Library| {
        let (mut chain, mut answer) = (Lent::bytes(chain), [u32::MAX; CHAIN_ANSWER_WORDS]);
        let number = (library.chain_of_polygon)(file, chain.part(), &mut answer);
        ([number], answer, chain.0)
    };
    let (ours, plain) = (run(library), run(&PLAIN));
    same("chain's number", file, &ours.0, &plain.0);
    same("chain's answer", file, &ours.1, &plain.1);
    same("chain's buffer", file, &ours.2, &plain.2);
    plain.1
}

/// Compares both conversions in a buffer of this length.
pub fn turns(library: &Library, digits: &[u8], out: usize) {
    let run = |convert: Convert| {
        let (mut out, mut answer) = (Lent::bytes(out), [u32::MAX; TURNS_ANSWER_WORDS]);
        let number = convert(digits, out.part(), &mut answer);
        ([number], answer, out.0)
    };
    for (ours, plain) in [
        (run(library.turns_of_steps), run(PLAIN.turns_of_steps)),
        (run(library.steps_of_turns), run(PLAIN.steps_of_turns)),
    ] {
        same("turns' number", digits, &ours.0, &plain.0);
        same("turns' answer", digits, &ours.1, &plain.1);
        same("turns' buffer", digits, &ours.2, &plain.2);
    }
}

/// Compares the answer to a line in a buffer of this length, and the line converted.
pub fn line(library: &Library, line: &[u8], out: usize) {
    let run = |write: Line, out: usize| {
        let mut out = Lent::bytes(out);
        let length = write(line, out.part());
        ([length], out.0)
    };
    let (ours, plain) = (run(library.line, out), run(PLAIN.line, out));
    same("line's length", line, &ours.0, &plain.0);
    same("line's answer", line, &ours.1, &plain.1);
    for out in [line.len().saturating_sub(1), line.len(), out] {
        let (ours, plain) = (run(library.convert_line, out), run(PLAIN.convert_line, out));
        same("converted line's length", line, &ours.0, &plain.0);
        same("converted line", line, &ours.1, &plain.1);
    }
}
