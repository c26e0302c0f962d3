//! The proved judge of a surveyor's walk, for Rust.
//!
//! A walk is a byte string of operations: 0 east, 1 north, 2 west, 3 south, 4 takes the last surviving step back. It starts at a
//! [`Corner`], for which every call also takes the pair `(x, y)`. The caller lends every buffer. A refusal leaves the buffers as
//! they were, except that [`Refusal::NoRoom`] leaves them wholly zero. No call allocates. Each call names the numbers
//! ([`Refusal::number`]) of its refusals, in the order in which it looks for them. include/undrwyth.h has the stack that each
//! call needs. A refusal is an error for `?`, and says in words what is wrong:
//!
//! ```
//! use undrwyth::{Corner, Refusal};
//! let refusal = undrwyth::convex(Corner { x: 0, y: 0 }, &[0, 1, 4]).unwrap_err();
//! assert_eq!(refusal, Refusal::BadDigit(2));
//! assert_eq!(refusal.to_string(), "a bad digit (refusal 4 at place 2)");
//! assert_eq!(undrwyth::convex((0, 0), &[0, 2]).unwrap_err().to_string(), "not a room (refusal 12)");
//! ```

#![no_std]
#![warn(missing_docs)]

mod code;
pub mod raw;

pub use answer::*;

/// Judges the walk of `ops` from the corner `start`, whose coordinates are at most [`MOST_START`] from 0, in a lent table of
/// [`RECORD_WORDS`] words for each record. For each operation `marks` has [`MARK_WORDS`] words, and `chain` one byte.
///
/// After an accepted walk the table holds the linked quadtree of the surviving steps, whose words [`word`] names. `marks` holds,
/// for each operation, the nodes in use after it, the visits at the corner where it ends, and how many records it changed;
/// `chain` holds the surviving steps and then zeros.
///
/// A table of 4 c + 64 records is never too small if the walk has at most c different corners at any moment, nor is one of
/// 4 c - 3 if the walk starts at (0, 0). The whole table is cleared, whatever the walk uses of it: lend what it can need, and
/// no more.
///
/// Refused with 1, 2, 3, 10; then 4, 5 or 6 at the first faulty place; then 7, which leaves the three buffers zero.
///
/// ```
/// let ops = [0, 1, 2, 3];
/// let mut table = [0; 4 * undrwyth::RECORD_WORDS];
/// let (mut marks, mut chain) = ([0; 12], [0; 4]);
/// let facts = undrwyth::walk((0, 0), &ops, &mut table, &mut marks, &mut chain)?;
/// assert_eq!(facts.verdict, undrwyth::Verdict::Room);
/// assert_eq!((facts.meeting, facts.area, facts.last), (Some((0, 4)), 1, (0, 0).into()));
/// assert_eq!(marks, [2, 1, 2, 3, 1, 3, 4, 1, 3, 4, 2, 2]);
/// assert_eq!(chain, ops);
/// # Ok::<(), undrwyth::Refusal>(())
/// ```
pub fn walk(
    start: impl Into<Corner>,
    ops: &[u8],
    table: &mut [u32],
    marks: &mut [u32],
    chain: &mut [u8],
) -> Result<Facts, Refusal> {
    let mut answer = [0; WALK_ANSWER_WORDS];
    let number = raw::walk(start, ops, table, marks, chain, &mut answer);
    accepted(number, answer[1])?;
    let [_, _, verdict, steps, nodes, corners, j, k, area, x, y] = answer;
    Ok(party_facts([verdict, steps, corners, j, k, area, x, y]).alone(nodes))
}

/// Judges the walks of two parties, 0 and 1, from their starts in one lent table of [`PAIR_RECORD_WORDS`] words for each record. A
/// byte of `ops` is 16 times the party plus the number of an operation, and concerns that party alone. For each byte `marks` has
/// [`MARK_WORDS`] words, and each of the two chains one byte.
///
/// After an accepted call the table holds the linked quadtree of the nodes that either party needs, each in one record: its words
/// up to [`word::LINK_STEP`] once, and the others for each party at [`word::of`]. `marks` holds, for each byte, the nodes in use
/// after it, the visits of the party that moved at the corner where it then stands, and how many records changed; each chain holds
/// the surviving steps of its party and then zeros.
///
/// A table of 4 c + 128 records is never too small if the different corners of both parties add up to at most c at any
/// moment. The whole table is cleared, whatever the walks use of it: lend what they can need, and no more.
///
/// Refused with 1, 2, 3, 10; then 20, 4, 5 or 6 at the first faulty place; then 7, which leaves the four buffers zero.
///
/// ```
/// // Two firms walk round their rooms, which share a panel; the second takes a step back.
/// let starts = [(0, 0), (3, 1)];
/// let ops = [0x00, 0x12, 0x00, 0x12, 0x11, 0x14, 0x01, 0x13, 0x02, 0x10, 0x02, 0x10, 0x03, 0x11];
/// let mut table = [0; 8 * undrwyth::PAIR_RECORD_WORDS];
/// let (mut marks, mut first, mut second) = ([0; 42], [9; 14], [9; 14]);
/// let facts = undrwyth::walk_two(starts, &ops, &mut table, &mut marks, [&mut first, &mut second])?;
/// assert_eq!(facts.nodes, 8);
/// assert_eq!(facts.parties.map(|party| (party.steps, party.area)), [(6, 2), (6, 2)]);
/// assert_eq!(first[..7], [0, 0, 1, 2, 2, 3, 0]);
/// assert_eq!(second[..7], [2, 2, 3, 0, 0, 1, 0]);
/// // Both went along the edge between (1, 0) and (2, 0), which stands in record 4.
/// let west = |q| undrwyth::word::of(q, undrwyth::word::EDGE + 2);
/// let record = &table[4 * undrwyth::PAIR_RECORD_WORDS..];
/// assert_eq!([record[west(0)], record[west(1)]], [1, 1]);
/// # Ok::<(), undrwyth::Refusal>(())
/// ```
pub fn walk_two(
    starts: [impl Into<Corner>; 2],
    ops: &[u8],
    table: &mut [u32],
    marks: &mut [u32],
    chains: [&mut [u8]; 2],
) -> Result<PairFacts, Refusal> {
    let mut answer = [0; WALK_TWO_ANSWER_WORDS];
    let number = raw::walk_two(starts, ops, table, marks, chains, &mut answer);
    accepted(number, answer[1])?;
    let [_, _, nodes, parties @ ..] = answer;
    let party = |q: usize| party_facts(core::array::from_fn(|i| parties[8 * q + i]));
    Ok(PairFacts {
        nodes,
        parties: [party(0), party(1)],
    })
}

/// Writes x and y of the hull corners of the walk of `chain` from `start` to the start of `out`, counterclockwise from the
/// lowest of the leftmost, no three in a line, and answers how many corners there are. The numbers after them are unchanged.
/// Refused with 1, 10, 4, 6 or 8.
///
/// ```
/// let mut out = [0; 5];
/// assert_eq!(undrwyth::hull((0, 0), &[0, 2, 2], &mut out), Ok(2));
/// assert_eq!(out, [-1, 0, 1, 0, 0]);
/// assert_eq!(undrwyth::hull((0, 0), &[0, 1], &mut out), Err(undrwyth::Refusal::HullRoom));
/// ```
pub fn hull(start: impl Into<Corner>, chain: &[u8], out: &mut [i32]) -> Result<usize, Refusal> {
    let mut answer = [0; HULL_ANSWER_WORDS];
    let number = raw::hull(start, chain, out, &mut answer);
    accepted(number, answer[1])?;
    Ok(answer[2] as usize)
}

/// Writes the steps of the outer outline of the walk of `chain` from `start` to the start of `out`: from the lowest of the
/// leftmost corners along walked edges, keeping to the right, until each walked edge of that corner is used. Answers how many
/// steps there are, at most two for each of the walk's; the bytes after them are unchanged. Refused with 1, 10, 4, 6 or 11.
///
/// ```
/// let mut out = [7; 8];
/// assert_eq!(undrwyth::outline((0, 0), &[1, 0, 3], &mut out), Ok(6));
/// assert_eq!(out, [1, 0, 3, 1, 2, 3, 7, 7]);
/// assert_eq!(
///     undrwyth::outline((0, 0), &[1, 0, 3], &mut out[..5]),
///     Err(undrwyth::Refusal::OutlineRoom)
/// );
/// ```
pub fn outline(start: impl Into<Corner>, chain: &[u8], out: &mut [u8]) -> Result<usize, Refusal> {
    let mut answer = [0; OUTLINE_ANSWER_WORDS];
    let number = raw::outline(start, chain, out, &mut answer);
    accepted(number, answer[1])?;
    Ok(answer[2] as usize)
}

/// Writes the room with this start and chain as a polygon to the start of `out`, in Well-Known Binary of little-endian order:
/// the start, each later corner where the turn is not 0, and the start again, in millimetres of panels of 600. Answers how
/// many bytes it has, at most 16 for each step and 29; the bytes after them are unchanged. Refused with 1, 10, 4, 6, 12 or 13.
///
/// ```
/// let mut out = [0; 93];
/// assert_eq!(undrwyth::polygon_of_room((0, 0), &[0, 1, 2, 3], &mut out), Ok(93));
/// assert_eq!(out[..13], [1, 3, 0, 0, 0, 1, 0, 0, 0, 5, 0, 0, 0]);
/// assert_eq!(out[29..37], 600_f64.to_le_bytes());
/// assert_eq!(
///     undrwyth::polygon_of_room((0, 0), &[0, 2], &mut out),
///     Err(undrwyth::Refusal::NotRoom)
/// );
/// ```
pub fn polygon_of_room(
    start: impl Into<Corner>,
    chain: &[u8],
    out: &mut [u8],
) -> Result<usize, Refusal> {
    let mut answer = [0; POLYGON_ANSWER_WORDS];
    let number = raw::polygon_of_room(start, chain, out, &mut answer);
    accepted(number, answer[1])?;
    Ok(answer[2] as usize)
}

/// Writes row, first and last panel of each span of the panels inside the room with this start and chain to the start of
/// `out`, rows from south to north and in a row from west to east, and answers how many spans there are: half as many as
/// steps north and south. The numbers after them are unchanged. Refused with 1, 10, 4, 6, 12 or 21.
///
/// ```
/// let mut out = [7; 7];
/// assert_eq!(undrwyth::rows((-1, 4), &[0, 0, 1, 2, 1, 2, 3, 3], &mut out), Ok(2));
/// assert_eq!(out, [4, -1, 0, 5, -1, -1, 7]);
/// assert_eq!(undrwyth::rows((0, 0), &[0, 1, 2, 3], &mut [0; 2]), Err(undrwyth::Refusal::SpanRoom));
/// ```
pub fn rows(start: impl Into<Corner>, chain: &[u8], out: &mut [i32]) -> Result<usize, Refusal> {
    let mut answer = [0; ROWS_ANSWER_WORDS];
    let number = raw::rows(start, chain, out, &mut answer);
    accepted(number, answer[1])?;
    Ok(answer[2] as usize)
}

/// Whether the room with this start and chain is convex: travelled clockwise and cut at its four extremal corners, each part
/// goes in two directions only, and between it and its convex hull, the hull line included, there is no other grid point.
/// Refused with 1, 10, 4, 6 or 12.
///
/// ```
/// let l_of_three = [0, 0, 1, 2, 1, 2, 3, 3];
/// assert_eq!(undrwyth::convex((0, 0), &l_of_three), Ok(true));
/// let l_of_five = [0, 0, 0, 1, 2, 2, 1, 1, 2, 3, 3, 3];
/// assert_eq!(undrwyth::convex((-7, 5), &l_of_five), Ok(false));
/// assert_eq!(undrwyth::convex((0, 0), &[0, 2]), Err(undrwyth::Refusal::NotRoom));
/// ```
pub fn convex(start: impl Into<Corner>, chain: &[u8]) -> Result<bool, Refusal> {
    let mut answer = [0; CONVEX_ANSWER_WORDS];
    let number = raw::convex(start, chain, &mut answer);
    accepted(number, answer[1])?;
    Ok(answer[2] == 1)
}

/// Writes the steps round the orthogonal hull of the room with this start and chain to the start of `out`. The plane is cut into
/// blocks of `grid` by `grid` panels, 1 to [`MOST_GRID`], and the hull is the smallest set of blocks that has each block with a
/// panel of the room and, with any two blocks of one row or one column, all blocks between them. The steps go counterclockwise
/// along the edges of blocks, from the lowest of the leftmost corners, which is answered in blocks too: corner (x, y) is corner
/// (grid x, grid y) of the panels. There are never more steps than in `chain`; the bytes after them are unchanged. Refused with 1,
/// 10, 22, 4, 6, 12 or 18.
///
/// ```
/// let u = [0, 0, 0, 1, 1, 2, 3, 2, 1, 2, 3, 3];
/// let mut out = [7; 12];
/// let hull = undrwyth::orthogonal_hull((-3, 5), &u, 1, &mut out)?;
/// assert_eq!((hull.start.into(), hull.steps, hull.blocks), ((-3, 5), 10, 6));
/// assert_eq!(out, [0, 0, 0, 1, 1, 2, 2, 2, 3, 3, 7, 7]);
/// let hull = undrwyth::orthogonal_hull((-3, 5), &u, 2, &mut out)?;
/// assert_eq!((hull.start.into(), hull.steps, hull.blocks), ((-2, 2), 8, 4));
/// assert_eq!(
///     undrwyth::orthogonal_hull((-3, 5), &u, 0, &mut out),
///     Err(undrwyth::Refusal::GridSize)
/// );
/// # Ok::<(), undrwyth::Refusal>(())
/// ```
pub fn orthogonal_hull(
    start: impl Into<Corner>,
    chain: &[u8],
    grid: u32,
    out: &mut [u8],
) -> Result<OrthogonalHull, Refusal> {
    let mut answer = [0; ORTHOGONAL_ANSWER_WORDS];
    let number = raw::orthogonal_hull(start, chain, grid, out, &mut answer);
    accepted(number, answer[1])?;
    let [_, _, steps, x, y, blocks] = answer;
    Ok(OrthogonalHull {
        start: corner(x, y),
        steps: steps as usize,
        blocks: blocks as usize,
    })
}

/// Writes the spans of the panels that are in the first room only, in the second only and in both, each to the start of its
/// buffer and as [`rows`] does, and answers how many panels and spans each of them has. A room is its start and its chain. The
/// numbers after the spans are unchanged; if a buffer is too short for its list, nothing is written. Refused with 1, 10, 4, 6 or 12
/// for the first room, then for the second, and then with 21.
///
/// ```
/// let u = ((0, 0), &[0, 0, 0, 1, 1, 2, 3, 2, 1, 2, 3, 3][..]);
/// let panel = ((2, 1), &[0, 1, 2, 3][..]);
/// let (mut first, mut second, mut both) = ([7; 7], [], [0; 3]);
/// let parts = undrwyth::overlay(u, panel, [&mut first, &mut second, &mut both])?;
/// assert_eq!((parts.first.panels, parts.second.panels, parts.both.panels), (4, 0, 1));
/// assert_eq!(first, [0, 0, 2, 1, 0, 0, 7]);
/// assert_eq!(both, [1, 2, 2]);
/// assert_eq!(
///     undrwyth::overlay(u, panel, [&mut first, &mut second, &mut []]),
///     Err(undrwyth::Refusal::SpanRoom)
/// );
/// # Ok::<(), undrwyth::Refusal>(())
/// ```
pub fn overlay(
    one: (impl Into<Corner>, &[u8]),
    other: (impl Into<Corner>, &[u8]),
    out: [&mut [i32]; 3],
) -> Result<Overlaid, Refusal> {
    let mut answer = [0; OVERLAY_ANSWER_WORDS];
    let number = raw::overlay(one, other, out, &mut answer);
    accepted(number, answer[1])?;
    let measure = |part: usize| Measure {
        panels: answer[2 + part] as usize,
        spans: answer[5 + part] as usize,
    };
    Ok(Overlaid {
        first: measure(0),
        second: measure(1),
        both: measure(2),
    })
}

/// Reads a polygon of one ring in Well-Known Binary, of either byte order: writes the steps along its points to the start of
/// `chain`, and answers the corner at which they start and how many there are. The bytes after them are unchanged. Refused with
/// 14, 15, 14 again, 16, 17, 6 or 18.
///
/// ```
/// let mut file = [0; 93];
/// undrwyth::polygon_of_room((5, -7), &[0, 1, 2, 3], &mut file)?;
/// let mut chain = [9; 5];
/// assert_eq!(undrwyth::chain_of_polygon(&file, &mut chain), Ok(((5, -7).into(), 4)));
/// assert_eq!(chain, [0, 1, 2, 3, 9]);
/// assert_eq!(
///     undrwyth::chain_of_polygon(&file[..92], &mut chain),
///     Err(undrwyth::Refusal::FileLength)
/// );
/// # Ok::<(), undrwyth::Refusal>(())
/// ```
pub fn chain_of_polygon(file: &[u8], chain: &mut [u8]) -> Result<(Corner, usize), Refusal> {
    let mut answer = [0; CHAIN_ANSWER_WORDS];
    let number = raw::chain_of_polygon(file, chain, &mut answer);
    accepted(number, answer[1])?;
    let [_, _, steps, x, y] = answer;
    Ok((corner(x, y), steps as usize))
}

/// Writes the turns of `steps` to `out`, which has the same length: the first step, then each step minus the one before,
/// modulo 4. Refused with 1, 3 or 4.
///
/// ```
/// let mut turns = [0; 4];
/// undrwyth::turns_of_steps(&[0, 1, 2, 2], &mut turns)?;
/// assert_eq!(turns, [0, 1, 1, 0]);
/// # Ok::<(), undrwyth::Refusal>(())
/// ```
pub fn turns_of_steps(steps: &[u8], out: &mut [u8]) -> Result<(), Refusal> {
    let mut answer = [0; TURNS_ANSWER_WORDS];
    let number = raw::turns_of_steps(steps, out, &mut answer);
    accepted(number, answer[1])
}

/// Writes the steps of `turns` to `out`, which has the same length: the inverse of [`turns_of_steps`], with its refusals.
///
/// ```
/// let mut steps = [0; 4];
/// undrwyth::steps_of_turns(&[0, 1, 1, 0], &mut steps)?;
/// assert_eq!(steps, [0, 1, 2, 2]);
/// # Ok::<(), undrwyth::Refusal>(())
/// ```
pub fn steps_of_turns(turns: &[u8], out: &mut [u8]) -> Result<(), Refusal> {
    let mut answer = [0; TURNS_ANSWER_WORDS];
    let number = raw::steps_of_turns(turns, out, &mut answer);
    accepted(number, answer[1])
}

/// The answer of the line program to one line, both without a line feed. It stands at the start of `out`. A refusal is a line
/// too: 9, then 19, then 4, 5 or 7.
///
/// ```
/// let mut out = [0; undrwyth::LINE_BYTES];
/// assert_eq!(undrwyth::line(b"0000015", &mut out), b"8400000000");
/// ```
pub fn line<'a>(line: &[u8], out: &'a mut [u8; LINE_BYTES]) -> &'a [u8] {
    let bytes = raw::line(line, out);
    &out[..bytes]
}

/// Converts one line, without its line feed: a frame of kind 01 whose digits are all at most 3 becomes the frame of kind 00 with
/// the same steps, and any other line stays. The converted line stands at the start of `out`. If `out` is shorter than the line,
/// the answer is `None`, and `out` is unchanged.
///
/// ```
/// let mut out = [0; 16];
/// assert_eq!(undrwyth::convert_line(b"0100040111", &mut out), Some(&b"0000040123"[..]));
/// assert_eq!(undrwyth::convert_line(b"0100014", &mut out), Some(&b"0100014"[..]));
/// assert_eq!(undrwyth::convert_line(b"0100040111", &mut out[..9]), None);
/// ```
pub fn convert_line<'a>(line: &[u8], out: &'a mut [u8]) -> Option<&'a [u8]> {
    let bytes = raw::convert_line(line, out);
    (bytes == line.len()).then(|| &out[..bytes])
}

/// The facts of a walk apart from its nodes, from the words of an answer.
fn party_facts([verdict, steps, corners, j, k, area, x, y]: [u32; 8]) -> PartyFacts {
    PartyFacts {
        verdict: Verdict::of(verdict).expect("a verdict is 0 to 5"),
        steps,
        corners,
        meeting: (k != NO_MEETING).then_some((j, k)),
        area: area.cast_signed(),
        last: corner(x, y),
    }
}

/// The corner whose coordinates stand in two words of an answer.
fn corner(x: u32, y: u32) -> Corner {
    Corner {
        x: x.cast_signed(),
        y: y.cast_signed(),
    }
}

/// The refusal with this number and place, if the number is not 0.
fn accepted(number: u32, place: u32) -> Result<(), Refusal> {
    match number {
        0 => Ok(()),
        _ => Err(Refusal::of(number, place).expect("the refusal has a number")),
    }
}
