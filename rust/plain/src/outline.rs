//! The outer outline, by a set of edges.

use std::collections::HashSet;

use answer::Refusal;

use crate::grid::{Corner, corners, stepped};
use crate::hull;

/// Writes the steps of the outer outline of the walk of `chain` from `start` to the start of `out`, and answers how many there are.
pub fn outline(start: Corner, chain: &[u8], out: &mut [u8]) -> Result<usize, Refusal> {
    hull::judge(start, chain)?;
    let outline = around(&corners(start, chain));
    let part = out.get_mut(..outline.len()).ok_or(Refusal::OutlineRoom)?;
    part.copy_from_slice(&outline);
    Ok(outline.len())
}

/// From the lowest of the leftmost corners first east, otherwise north; then the first walked edge of right turn, straight on,
/// left turn, back; until back at that corner with each of its walked edges used, whichever way.
fn around(corners: &[Corner]) -> Vec<u8> {
    let walked: HashSet<(Corner, Corner)> = corners
        .windows(2)
        .flat_map(|ends| [(ends[0], ends[1]), (ends[1], ends[0])])
        .collect();
    let leads = |at, way| walked.contains(&(at, stepped(at, way)));
    let home = *corners.iter().min().expect("a walk has a corner");
    let mut unused: HashSet<Corner> = (0..4)
        .filter(|&way| leads(home, way))
        .map(|way| stepped(home, way))
        .collect();
    let mut outline = Vec::new();
    let (mut at, mut way) = (home, u8::from(!leads(home, 0)));
    while at != home || !unused.is_empty() {
        let to = stepped(at, way);
        if at == home {
            unused.remove(&to);
        }
        if to == home {
            unused.remove(&at);
        }
        outline.push(way);
        at = to;
        way = [3, 0, 1, 2]
            .map(|turn| (way + turn) % 4)
            .into_iter()
            .find(|&way| leads(at, way))
            .expect("it came by an edge");
    }
    outline
}
