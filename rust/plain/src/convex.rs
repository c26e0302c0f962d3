//! Which rooms are convex, by the centres of their panels: a panel whose centre lies in the convex hull of the centres of those
//! inside is inside too.

use std::collections::BTreeMap;

use answer::Refusal;

use crate::grid::{Corner, corners};
use crate::hull::hull_list;
use crate::polygon::judge;

/// Whether the room with this start and chain is convex.
pub fn convex(start: Corner, chain: &[u8]) -> Result<bool, Refusal> {
    judge(start, chain)?;
    Ok(holds_its_hull(&rows(start, chain)))
}

/// The first and the last panel inside of each span of each row, from the sides that stand in the row.
fn rows(start: Corner, chain: &[u8]) -> BTreeMap<i32, Vec<(i32, i32)>> {
    let mut sides: BTreeMap<i32, Vec<i32>> = BTreeMap::new();
    for two in corners(start, chain).windows(2) {
        let [(x, y), (_, z)] = [two[0], two[1]];
        if y != z {
            sides.entry(y.min(z)).or_default().push(x);
        }
    }
    let spans = |mut xs: Vec<i32>| {
        xs.sort_unstable();
        xs.chunks_exact(2).map(|two| (two[0], two[1] - 1)).collect()
    };
    sides.into_iter().map(|(y, xs)| (y, spans(xs))).collect()
}

/// Whether no row has a gap, nor a panel beside its span whose centre lies in the hull of all centres.
fn holds_its_hull(rows: &BTreeMap<i32, Vec<(i32, i32)>>) -> bool {
    if rows.values().any(|spans| spans.len() > 1) {
        return false;
    }
    let ends = |(&y, spans): (&i32, &Vec<(i32, i32)>)| [(spans[0].0, y), (spans[0].1, y)];
    let hull = hull_list(rows.iter().flat_map(ends).collect());
    let edges = hull.iter().zip(hull.iter().cycle().skip(1));
    edges.into_iter().all(|(&(x, y), &(z, w))| {
        // The hull is on the left of the edge: a fall has it on the east, a rise on the west.
        (y.min(w)..=y.max(w)).all(|row| {
            let (rise, run) = (i64::from(w - y), i64::from(z - x));
            let beside = match rise.signum() {
                -1 => rows[&row][0].0 - 1,
                1 => rows[&row][0].1 + 1,
                _ => return true,
            };
            run * i64::from(row - y) - rise * i64::from(beside - x) < 0
        })
    })
}

#[cfg(test)]
mod tests {
    use super::*;

    fn told(digits: &str) -> bool {
        let chain: Vec<u8> = digits.bytes().map(|digit| digit - b'0').collect();
        convex((-3, 8), &chain).unwrap()
    }

    /// Whether some panel outside has its centre in the hull: every panel of the box is tried.
    fn by_all_panels(chain: &[u8]) -> bool {
        let rows = rows((0, 0), chain);
        let inside = |x: i32, y: i32| rows[&y].iter().any(|&(a, b)| a <= x && x <= b);
        let spans = || {
            rows.iter()
                .flat_map(|(&y, row)| row.iter().map(move |&(a, b)| (y, a, b)))
        };
        let centres = spans().flat_map(|(y, a, b)| (a..=b).map(move |x| (x, y)));
        let hull = hull_list(centres.collect());
        let (west, east) = (spans().map(|s| s.1).min(), spans().map(|s| s.2).max());
        rows.keys().all(|&y| {
            (west.unwrap()..=east.unwrap()).all(|x| {
                let left_of =
                    |((a, b), (c, d)): (Corner, Corner)| (c - a) * (y - b) >= (d - b) * (x - a);
                let edges = || {
                    hull.iter()
                        .copied()
                        .zip(hull.iter().copied().cycle().skip(1))
                };
                let held = match hull.len() {
                    1 | 2 => hull[0].0 <= x && x <= hull[hull.len() - 1].0,
                    _ => edges().all(left_of),
                };
                inside(x, y) || !held
            })
        })
    }

    #[test]
    fn worked() {
        let yes = ["0123", "1032", "00122230", "00121233", "010121232303"];
        assert!(yes.into_iter().all(told));
        let no = ["000122112333", "001210122333"];
        assert!(!no.into_iter().any(told));
    }

    #[test]
    fn every_room_up_to_ten_steps() {
        fn go(at: Corner, chain: &mut Vec<u8>, longest: usize, rooms: &mut usize) {
            if chain.len() >= 4 && judge((0, 0), chain).is_ok() {
                assert_eq!(convex((0, 0), chain), Ok(by_all_panels(chain)), "{chain:?}");
                *rooms += 1;
                return;
            }
            let left = longest - chain.len();
            if at.0.unsigned_abs() as usize + at.1.unsigned_abs() as usize > left || left == 0 {
                return;
            }
            for step in 0..4 {
                chain.push(step);
                go(crate::grid::stepped(at, step), chain, longest, rooms);
                chain.pop();
            }
        }
        let mut rooms = 0;
        go((0, 0), &mut Vec::new(), 10, &mut rooms);
        assert!(rooms > 500);
    }
}
