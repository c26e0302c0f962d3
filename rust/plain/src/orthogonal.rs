//! The orthogonal hull by its definition: from the set of all blocks with a panel of the room, rows and columns are filled until
//! nothing changes; and its outline along the sides that have a block on the left alone.

use std::collections::{BTreeMap, BTreeSet, HashMap};

use answer::{MOST_GRID, OrthogonalHull, Refusal};

use crate::grid::{Corner, stepped};
use crate::polygon;
use crate::rows::panels;

/// A block by its row and then its column.
type Block = (i32, i32);

/// Writes the steps round the hull of the room with this start and chain, in blocks of this size, and answers its start, its
/// steps and its blocks.
pub fn orthogonal_hull(
    start: Corner,
    chain: &[u8],
    grid: u32,
    out: &mut [u8],
) -> Result<OrthogonalHull, Refusal> {
    judge(start, chain, grid)?;
    let blocks = hull(blocks(start, chain, grid as i32));
    let (from, steps) = outline(&blocks);
    let part = out.get_mut(..steps.len()).ok_or(Refusal::ChainRoom)?;
    part.copy_from_slice(&steps);
    Ok(OrthogonalHull {
        start: from.into(),
        steps: steps.len(),
        blocks: blocks.len(),
    })
}

/// Refusals 1, 10, 22, 4, 6 and 12.
fn judge(start: Corner, chain: &[u8], grid: u32) -> Result<(), Refusal> {
    match polygon::judge(start, chain) {
        Err(first @ (Refusal::TooMany | Refusal::StartRange)) => Err(first),
        _ if grid == 0 || grid > MOST_GRID => Err(Refusal::GridSize),
        judged => judged,
    }
}

/// The blocks that have a panel of the room.
fn blocks(start: Corner, chain: &[u8], grid: i32) -> BTreeSet<Block> {
    let panels = panels(start, chain).into_iter();
    panels
        .map(|(row, x)| (row.div_euclid(grid), x.div_euclid(grid)))
        .collect()
}

/// The smallest set with these blocks that has, with any two blocks of a row or a column, all blocks between them.
fn hull(mut blocks: BTreeSet<Block>) -> BTreeSet<Block> {
    loop {
        let wider = turned(&filled(&turned(&filled(&blocks))));
        if wider.len() == blocks.len() {
            return blocks;
        }
        blocks = wider;
    }
}

/// All blocks from the first to the last of each row.
fn filled(blocks: &BTreeSet<Block>) -> BTreeSet<Block> {
    let mut ends: BTreeMap<i32, (i32, i32)> = BTreeMap::new();
    for &(row, x) in blocks {
        let (first, last) = ends.entry(row).or_insert((x, x));
        (*first, *last) = ((*first).min(x), (*last).max(x));
    }
    let ends = ends.into_iter();
    ends.flat_map(|(row, (first, last))| (first..=last).map(move |x| (row, x)))
        .collect()
}

/// Columns as rows, and rows as columns.
fn turned(blocks: &BTreeSet<Block>) -> BTreeSet<Block> {
    blocks.iter().map(|&(row, x)| (x, row)).collect()
}

/// The lowest of the leftmost corners of these blocks, and the steps from there round them.
fn outline(blocks: &BTreeSet<Block>) -> (Corner, Vec<u8>) {
    let mut ways = HashMap::new();
    for &(y, x) in blocks {
        for (way, from, beyond) in [
            (0, (x, y), (y - 1, x)),
            (1, (x + 1, y), (y, x + 1)),
            (2, (x + 1, y + 1), (y + 1, x)),
            (3, (x, y + 1), (y, x - 1)),
        ] {
            if !blocks.contains(&beyond) {
                let other = ways.insert(from, way);
                assert_eq!(other, None, "the hull of a room comes to no corner twice");
            }
        }
    }
    let start = *ways.keys().min().expect("a room has a panel");
    let (mut at, mut steps) = (start, Vec::new());
    while steps.is_empty() || at != start {
        let way = ways[&at];
        steps.push(way);
        at = stepped(at, way);
    }
    assert_eq!(steps.len(), ways.len());
    (start, steps)
}

#[cfg(test)]
mod tests {
    use super::*;

    /// A block is in the hull exactly if each of its four quadrants has a block of the room.
    fn by_quadrants(blocks: &BTreeSet<Block>, (row, x): Block) -> bool {
        [(1, 1), (1, -1), (-1, 1), (-1, -1)]
            .into_iter()
            .all(|(up, right)| {
                let held = |&(r, c): &Block| (r - row) * up >= 0 && (c - x) * right >= 0;
                blocks.iter().any(held)
            })
    }

    #[test]
    fn hulls_are_those_of_the_quadrants() {
        let u = [0, 0, 0, 1, 1, 2, 3, 2, 1, 2, 3, 3];
        let plus = [0, 1, 0, 1, 2, 1, 2, 3, 2, 3, 0, 3];
        let stairs = [0, 1, 0, 1, 0, 1, 1, 2, 2, 2, 3, 3, 3, 3];
        let spiral = [
            0, 0, 0, 0, 0, 1, 1, 1, 1, 1, 2, 2, 2, 2, 3, 3, 3, 0, 0, 1, 2, 1, 0, 0, 3, 3, 3, 2, 2,
            2, 2, 3,
        ];
        for chain in [&u[..], &plus, &stairs, &spiral] {
            for grid in 1..5 {
                for start in [(0, 0), (-3, 2), (-1, -1), (7, -5)] {
                    if judge(start, chain, grid).is_err() {
                        continue;
                    }
                    let room = blocks(start, chain, grid as i32);
                    let hull = hull(room.clone());
                    for block in (-12..16).flat_map(|row| (-12..16).map(move |x| (row, x))) {
                        assert_eq!(hull.contains(&block), by_quadrants(&room, block));
                    }
                }
            }
        }
    }
}
