//! Comparisons with `plain`: every answer, and every word of every lent buffer with the words around it.

pub mod calls;
pub mod inputs;
pub mod loaded;
pub mod suite;

use answer::{
    CHAIN_ANSWER_WORDS, CONVEX_ANSWER_WORDS, Facts, HULL_ANSWER_WORDS, NO_MEETING,
    ORTHOGONAL_ANSWER_WORDS, OUTLINE_ANSWER_WORDS, OVERLAY_ANSWER_WORDS, OrthogonalHull, Overlaid,
    POLYGON_ANSWER_WORDS, PairFacts, ROWS_ANSWER_WORDS, Refusal, TURNS_ANSWER_WORDS,
    WALK_ANSWER_WORDS, WALK_TWO_ANSWER_WORDS,
};

/// The calls of an implementation, with the answers of the C boundary.
pub struct Library {
    pub walk: Walk,
    pub walk_two: WalkTwo,
    pub hull: Hull,
    pub outline: Outline,
    pub polygon_of_room: Polygon,
    pub rows: Rows,
    pub convex: Convex,
    pub orthogonal_hull: Orthogonal,
    pub overlay: Overlay,
    pub chain_of_polygon: Chain,
    pub turns_of_steps: Convert,
    pub steps_of_turns: Convert,
    pub line: Line,
    pub convert_line: Line,
}

/// The walk of operations from a start in table, marks and chain.
pub type Walk =
    fn((i32, i32), &[u8], &mut [u32], &mut [u32], &mut [u8], &mut [u32; WALK_ANSWER_WORDS]) -> u32;

/// The starts of two parties.
pub type Starts = [(i32, i32); 2];

/// The walks of two parties from their starts in table, marks and two chains.
pub type WalkTwo = fn(
    Starts,
    &[u8],
    &mut [u32],
    &mut [u32],
    [&mut [u8]; 2],
    &mut [u32; WALK_TWO_ANSWER_WORDS],
) -> u32;

/// The hull of the walk of a chain from a start.
pub type Hull = fn((i32, i32), &[u8], &mut [i32], &mut [u32; HULL_ANSWER_WORDS]) -> u32;

/// The outer outline of the walk of a chain from a start.
pub type Outline = fn((i32, i32), &[u8], &mut [u8], &mut [u32; OUTLINE_ANSWER_WORDS]) -> u32;

/// A room, by its start and chain, as a polygon.
pub type Polygon = fn((i32, i32), &[u8], &mut [u8], &mut [u32; POLYGON_ANSWER_WORDS]) -> u32;

/// The panels of a room, by its start and chain, by rows.
pub type Rows = fn((i32, i32), &[u8], &mut [i32], &mut [u32; ROWS_ANSWER_WORDS]) -> u32;

/// Something written of a line, and how many bytes that is.
pub type Line = fn(&[u8], &mut [u8]) -> usize;

/// Whether a room, by its start and chain, is convex.
pub type Convex = fn((i32, i32), &[u8], &mut [u32; CONVEX_ANSWER_WORDS]) -> u32;

/// The orthogonal hull of a room, by its start and chain, in blocks of a grid size.
pub type Orthogonal =
    fn((i32, i32), &[u8], u32, &mut [u8], &mut [u32; ORTHOGONAL_ANSWER_WORDS]) -> u32;

/// A start and a chain.
pub type Room<'a> = ((i32, i32), &'a [u8]);

/// The parts of two rooms that are laid over each other: in the first only, in the second only, in both.
pub type Overlay = fn(Room, Room, [&mut [i32]; 3], &mut [u32; OVERLAY_ANSWER_WORDS]) -> u32;

/// A polygon as a start and a chain.
pub type Chain = fn(&[u8], &mut [u8], &mut [u32; CHAIN_ANSWER_WORDS]) -> u32;

/// A conversion between steps and turns.
pub type Convert = fn(&[u8], &mut [u8], &mut [u32; TURNS_ANSWER_WORDS]) -> u32;

/// The proved library.
#[cfg(feature = "proved")]
pub const PROVED: Library = Library {
    walk: undrwyth::raw::walk,
    walk_two: undrwyth::raw::walk_two,
    hull: undrwyth::raw::hull,
    outline: undrwyth::raw::outline,
    polygon_of_room: undrwyth::raw::polygon_of_room,
    rows: undrwyth::raw::rows,
    convex: undrwyth::raw::convex,
    orthogonal_hull: undrwyth::raw::orthogonal_hull,
    overlay: undrwyth::raw::overlay,
    chain_of_polygon: undrwyth::raw::chain_of_polygon,
    turns_of_steps: undrwyth::raw::turns_of_steps,
    steps_of_turns: undrwyth::raw::steps_of_turns,
    line: undrwyth::raw::line,
    convert_line: undrwyth::raw::convert_line,
};

/// A crate of this workspace as a library.
macro_rules! library {
    ($of:ident) => {
        Library {
            walk: |start, ops, table, marks, chain, answer| {
                tell(
                    answer,
                    $of::walk(start, ops, table, marks, chain).map(words),
                )
            },
            walk_two: |starts, ops, table, marks, chains, answer| {
                let facts = $of::walk_two(starts, ops, table, marks, chains);
                tell(answer, facts.map(pair_words))
            },
            hull: |start, chain, out, answer| {
                tell(
                    answer,
                    $of::hull(start, chain, out).map(|count| [count as u32]),
                )
            },
            outline: |start, chain, out, answer| {
                let steps = $of::outline(start, chain, out);
                tell(answer, steps.map(|steps| [steps as u32]))
            },
            polygon_of_room: |start, chain, out, answer| {
                let bytes = $of::polygon_of_room(start, chain, out);
                tell(answer, bytes.map(|bytes| [bytes as u32]))
            },
            rows: |start, chain, out, answer| {
                let spans = $of::rows(start, chain, out);
                tell(answer, spans.map(|spans| [spans as u32]))
            },
            convex: |start, chain, answer| {
                tell(
                    answer,
                    $of::convex(start, chain).map(|yes| [u32::from(yes)]),
                )
            },
            orthogonal_hull: |start, chain, grid, out, answer| {
                let hull = $of::orthogonal_hull(start, chain, grid, out);
                tell(answer, hull.map(hull_words))
            },
            overlay: |one, other, out, answer| {
                tell(answer, $of::overlay(one, other, out).map(measures))
            },
            chain_of_polygon: |file, chain, answer| {
                let found = $of::chain_of_polygon(file, chain);
                tell(
                    answer,
                    found.map(|(start, steps)| {
                        [
                            steps as u32,
                            start.x.cast_unsigned(),
                            start.y.cast_unsigned(),
                        ]
                    }),
                )
            },
            turns_of_steps: |steps, out, answer| {
                tell(answer, $of::turns_of_steps(steps, out).map(|()| []))
            },
            steps_of_turns: |turns, out, answer| {
                tell(answer, $of::steps_of_turns(turns, out).map(|()| []))
            },
            line: $of::line,
            convert_line: $of::convert_line,
        }
    };
}

/// The rules by sets and maps.
pub const PLAIN: Library = library!(plain);

/// The design of the proved library in plain Rust.
pub const TWIN: Library = library!(twin);

/// Writes number and place and then the facts, or zeros if there are none; answers the number.
fn tell<const FACTS: usize>(answer: &mut [u32], result: Result<[u32; FACTS], Refusal>) -> u32 {
    answer.fill(0);
    match result {
        Ok(facts) => answer[2..].copy_from_slice(&facts),
        Err(refusal) => answer[..2].copy_from_slice(&[refusal.number(), refusal.place()]),
    }
    answer[0]
}

/// The panels of the three parts, and then their spans.
fn measures(parts: Overlaid) -> [u32; OVERLAY_ANSWER_WORDS - 2] {
    let parts = [parts.first, parts.second, parts.both];
    let [a, b, c] = parts.map(|part| part.panels as u32);
    let [d, e, f] = parts.map(|part| part.spans as u32);
    [a, b, c, d, e, f]
}

/// Steps, start and blocks of an orthogonal hull.
fn hull_words(hull: OrthogonalHull) -> [u32; ORTHOGONAL_ANSWER_WORDS - 2] {
    [
        hull.steps as u32,
        hull.start.x.cast_unsigned(),
        hull.start.y.cast_unsigned(),
        hull.blocks as u32,
    ]
}

/// The facts of two parties as words: those of each without its nodes, which both have in common.
fn pair_words(facts: PairFacts) -> [u32; WALK_TWO_ANSWER_WORDS - 2] {
    let mut all = [facts.nodes; WALK_TWO_ANSWER_WORDS - 2];
    for (party, own) in facts.parties.into_iter().zip(all[1..].chunks_exact_mut(8)) {
        let [verdict, steps, _, rest @ ..] = words(party.alone(0));
        own[..2].copy_from_slice(&[verdict, steps]);
        own[2..].copy_from_slice(&rest);
    }
    all
}

/// The facts of a walk as words.
fn words(facts: Facts) -> [u32; WALK_ANSWER_WORDS - 2] {
    let (j, k) = facts.meeting.unwrap_or((NO_MEETING, NO_MEETING));
    [
        facts.verdict as u32,
        facts.steps,
        facts.nodes,
        facts.corners,
        j,
        k,
        facts.area.cast_unsigned(),
        facts.last.x.cast_unsigned(),
        facts.last.y.cast_unsigned(),
    ]
}
