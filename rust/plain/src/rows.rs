//! Panels by rows, from the set of all panels of the bounding box that an odd number of vertical edges lies beside.

use std::collections::{BTreeMap, BTreeSet};

use answer::Refusal;

use crate::grid::{Corner, corners};
use crate::polygon;

/// A panel by its row and then its column, so that a set of panels is in the order of the list.
pub type Panel = (i32, i32);

/// Writes row, first and last panel of each span of the room with this start and chain, and answers how many spans there are.
pub fn rows(start: Corner, chain: &[u8], out: &mut [i32]) -> Result<usize, Refusal> {
    polygon::judge(start, chain)?;
    let spans = spans(&panels(start, chain));
    write(&spans, out)
}

/// The panels inside a closed walk.
pub fn panels(start: Corner, chain: &[u8]) -> BTreeSet<Panel> {
    let corners = corners(start, chain);
    let mut edges: BTreeMap<i32, Vec<i32>> = BTreeMap::new();
    for two in corners.windows(2) {
        if two[0].1 != two[1].1 {
            let row = two[0].1.min(two[1].1);
            edges.entry(row).or_default().push(two[0].0);
        }
    }
    let mut panels = BTreeSet::new();
    for (row, edges) in edges {
        let west = *edges.iter().min().expect("a row has an edge");
        let east = *edges.iter().max().expect("a row has an edge");
        let mut beside = BTreeMap::new();
        for x in edges {
            *beside.entry(x).or_insert(0) += 1;
        }
        let mut above: u32 = 0;
        for x in (west..east).rev() {
            above += beside.get(&(x + 1)).copied().unwrap_or(0);
            if above % 2 == 1 {
                panels.insert((row, x));
            }
        }
    }
    panels
}

/// Row, first and last panel of each longest run of panels in a row.
pub fn spans(panels: &BTreeSet<Panel>) -> Vec<[i32; 3]> {
    let mut spans: Vec<[i32; 3]> = Vec::new();
    for &(row, x) in panels {
        match spans.last_mut() {
            Some(span) if span[0] == row && span[2] + 1 == x => span[2] = x,
            _ => spans.push([row, x, x]),
        }
    }
    spans
}

/// Writes the spans, if the buffer is long enough, and answers how many there are.
pub fn write(spans: &[[i32; 3]], out: &mut [i32]) -> Result<usize, Refusal> {
    let part = out.get_mut(..3 * spans.len()).ok_or(Refusal::SpanRoom)?;
    part.copy_from_slice(&spans.concat());
    Ok(spans.len())
}

#[cfg(test)]
pub mod tests {
    use super::*;

    /// The rule word for word, for each panel around a walk.
    pub fn inside(start: Corner, chain: &[u8], (row, x): Panel) -> bool {
        let beside =
            |two: &&[Corner]| two[0].1 != two[1].1 && two[0].1.min(two[1].1) == row && two[0].0 > x;
        corners(start, chain).windows(2).filter(beside).count() % 2 == 1
    }

    #[test]
    fn panels_are_those_of_the_rule() {
        let u = [0, 0, 0, 1, 1, 2, 3, 2, 1, 2, 3, 3];
        for chain in [
            &u[..],
            &[0, 1, 2, 3],
            &[3, 2, 1, 0],
            &[0, 0, 1, 1, 0, 0, 3, 2, 2, 2, 2, 3],
        ] {
            let found = panels((-2, 5), chain);
            for row in 0..10 {
                for x in -8..8 {
                    assert_eq!(found.contains(&(row, x)), inside((-2, 5), chain, (row, x)));
                }
            }
        }
    }
}
