//! The convex hull, by sorting.

use answer::{MOST_INPUT, MOST_STEPS, Refusal};

use crate::grid::{Corner, corners, judge_start};

/// Writes x and y of each hull corner of the walk of `chain` from `start`, and answers how many there are.
pub fn hull(start: Corner, chain: &[u8], out: &mut [i32]) -> Result<usize, Refusal> {
    judge(start, chain)?;
    let list = hull_list(corners(start, chain));
    if out.len() < 2 * list.len() {
        return Err(Refusal::HullRoom);
    }
    for (pair, &(x, y)) in out.chunks_exact_mut(2).zip(&list) {
        pair.copy_from_slice(&[x, y]);
    }
    Ok(list.len())
}

/// Refusals 1, 10, 4 and 6.
pub fn judge(start: Corner, chain: &[u8]) -> Result<(), Refusal> {
    if chain.len() > MOST_INPUT {
        return Err(Refusal::TooMany);
    }
    judge_start(start)?;
    for (place, &step) in chain.iter().enumerate() {
        if step > 3 {
            return Err(Refusal::BadDigit(place as u32));
        }
        if place == MOST_STEPS {
            return Err(Refusal::TooLong(place as u32));
        }
    }
    Ok(())
}

/// The hull corners, counterclockwise from the lowest of the leftmost, no three in a line.
pub fn hull_list(mut corners: Vec<Corner>) -> Vec<Corner> {
    corners.sort_unstable();
    corners.dedup();
    if corners.len() == 1 {
        return corners;
    }
    // Each side ends where the other begins.
    let mut lower = side(corners.iter());
    let mut upper = side(corners.iter().rev());
    lower.pop();
    upper.pop();
    lower.append(&mut upper);
    lower
}

/// One side of the hull: of corners in their order, those at which it turns left.
fn side<'a>(corners: impl Iterator<Item = &'a Corner>) -> Vec<Corner> {
    let mut side: Vec<Corner> = Vec::new();
    for &c in corners {
        while let [.., a, b] = side[..]
            && cross(a, b, c) <= 0
        {
            side.pop();
        }
        side.push(c);
    }
    side
}

/// Twice the signed area of the triangle: above 0 if a, b, c turn left.
fn cross(a: Corner, b: Corner, c: Corner) -> i64 {
    let (ux, uy) = (i64::from(b.0 - a.0), i64::from(b.1 - a.1));
    let (vx, vy) = (i64::from(c.0 - a.0), i64::from(c.1 - a.1));
    ux * vy - uy * vx
}

#[cfg(test)]
mod tests {
    use super::*;

    /// Holds the list to what a hull is: visited corners, the first the lowest of the leftmost, any three of them in order a
    /// left turn, and every visited corner on or left of each edge.
    fn check(chain: &[u8]) {
        let visited = corners((-3, 5), chain);
        let list = hull_list(visited.clone());
        assert_eq!(Some(&list[0]), visited.iter().min());
        assert!(list.iter().all(|c| visited.contains(c)));
        for (i, &a) in list.iter().enumerate() {
            let b = list[(i + 1) % list.len()];
            assert!(visited.iter().all(|&c| cross(a, b, c) >= 0), "{chain:?}");
            for (j, &b) in list.iter().enumerate().skip(i + 1) {
                assert!(list[j + 1..].iter().all(|&c| cross(a, b, c) > 0));
            }
        }
        if list.len() == 2 {
            assert_eq!(Some(&list[1]), visited.iter().max());
        }
    }

    #[test]
    fn every_chain_up_to_seven_steps() {
        for length in 0..=7 {
            for code in 0..1 << (2 * length) {
                let chain: Vec<u8> = (0..length).map(|i| (code >> (2 * i) & 3) as u8).collect();
                check(&chain);
            }
        }
    }
}
