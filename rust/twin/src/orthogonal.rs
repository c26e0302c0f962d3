//! The orthogonal hull: the westmost and the eastmost side of each row of blocks, in one pass over the steps, and from there, by
//! least and greatest of the rows before and after, the two ends of each row of the hull.

use answer::{MOST_GRID, OrthogonalHull, Refusal};

use crate::polygon::judge_room;

/// Writes the steps round the hull of the room with this start and chain, in blocks of this size, and answers its start, its
/// steps and its blocks.
pub fn orthogonal_hull(
    start: (i32, i32),
    chain: &[u8],
    grid: u32,
    out: &mut [u8],
) -> Result<OrthogonalHull, Refusal> {
    match judge_room(start, chain) {
        Err(first @ (Refusal::TooMany | Refusal::StartRange)) => return Err(first),
        _ if grid == 0 || grid > MOST_GRID => return Err(Refusal::GridSize),
        judged => judged?,
    }
    let grid = grid as i32;
    match chain.len() {
        0..=256 => put(start, chain, grid, out, [WEST; 128], [EAST; 128]),
        257..=2_048 => put(start, chain, grid, out, [WEST; 1_024], [EAST; 1_024]),
        _ => put(start, chain, grid, out, [WEST; 8_192], [EAST; 8_192]),
    }
}

/// What a row has before the walk comes there.
const WEST: i16 = i16::MAX;
const EAST: i16 = i16::MIN;

fn put<const N: usize>(
    start: (i32, i32),
    chain: &[u8],
    grid: i32,
    out: &mut [u8],
    mut left: [i16; N],
    mut right: [i16; N],
) -> Result<OrthogonalHull, Refusal> {
    let (south, rows) = extent(start.1, chain, grid);
    let (left, right) = (&mut left[..rows], &mut right[..rows]);
    sides(start, chain, grid, south, left, right);
    for (first, last) in left.iter_mut().zip(right.iter_mut()) {
        *first = i32::from(*first).div_euclid(grid) as i16;
        *last = (i32::from(*last) - 1).div_euclid(grid) as i16;
    }
    let (west, low) = narrow(left, |a, b| a < b);
    let (east, _) = narrow(right, |a, b| a > b);
    let width = (i32::from(east) - i32::from(west) + 1) as usize;
    let steps = 2 * (width + rows);
    let out = out.get_mut(..steps).ok_or(Refusal::ChainRoom)?;
    round(left, right, low, out);
    let wide = |(first, last): (&i16, &i16)| (i32::from(*last) - i32::from(*first) + 1) as usize;
    Ok(OrthogonalHull {
        start: (west.into(), south + low as i32).into(),
        steps,
        blocks: left.iter().zip(right.iter()).map(wide).sum(),
    })
}

/// The lowest row of blocks, and how many there are.
fn extent(start: i32, chain: &[u8], grid: i32) -> (i32, usize) {
    let (mut y, mut low, mut high) = (start, start, start);
    for &step in chain {
        y += [0, 1, 0, -1][usize::from(step % 4)];
        (low, high) = (low.min(y), high.max(y));
    }
    let south = low.div_euclid(grid);
    (south, ((high - 1).div_euclid(grid) - south + 1) as usize)
}

/// The least and the greatest x of the vertical sides in each row of blocks.
fn sides(
    (mut x, mut y): (i32, i32),
    chain: &[u8],
    grid: i32,
    south: i32,
    left: &mut [i16],
    right: &mut [i16],
) {
    for &step in chain {
        if step % 2 == 1 {
            let panels = (y - i32::from(step > 2) - south * grid) as usize;
            let row = panels / grid as usize;
            left[row] = left[row].min(x as i16);
            right[row] = right[row].max(x as i16);
        }
        x += [1, 0, -1, 0][usize::from(step % 4)];
        y += [0, 1, 0, -1][usize::from(step % 4)];
    }
}

/// Brings the end of each row in to the outer of the outmost up to it and the outmost from it on, and answers the outmost of all
/// with the first row that has it.
fn narrow(ends: &mut [i16], outer: impl Fn(i16, i16) -> bool) -> (i16, usize) {
    let (mut most, mut at) = (ends[0], 0);
    for (row, &end) in ends.iter().enumerate() {
        if outer(end, most) {
            (most, at) = (end, row);
        }
    }
    let spread = |end: &mut i16, so_far: &mut i16| {
        *so_far = if outer(*end, *so_far) { *end } else { *so_far };
        *end = *so_far;
    };
    let mut so_far = ends[0];
    ends[..at]
        .iter_mut()
        .for_each(|end| spread(end, &mut so_far));
    let mut so_far = ends[ends.len() - 1];
    ends[at..]
        .iter_mut()
        .rev()
        .for_each(|end| spread(end, &mut so_far));
    (most, at)
}

/// The steps round the hull, from the lower corner of the west end of row `low`.
fn round(left: &[i16], right: &[i16], low: usize, out: &mut [u8]) {
    let mut place = 0;
    let mut go = |way: u8, count: usize| {
        out[place..place + count].fill(way);
        place += count;
    };
    let along = |from: i16, to: i16| (i32::from(to) - i32::from(from)) as usize;
    for row in (0..low).rev() {
        go(0, along(left[row + 1], left[row]));
        go(3, 1);
    }
    go(0, along(left[0], right[0]) + 1);
    let top = left.len() - 1;
    for row in 0..top {
        go(1, 1);
        match (right[row], right[row + 1]) {
            (here, next) if here < next => go(0, along(here, next)),
            (here, next) => go(2, along(next, here)),
        }
    }
    go(1, 1);
    go(2, along(left[top], right[top]) + 1);
    for row in (low..top).rev() {
        go(3, 1);
        go(2, along(left[row], left[row + 1]));
    }
    go(3, 1);
}
