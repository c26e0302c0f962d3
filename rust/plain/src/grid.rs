//! Corners, and the parents above them.

use answer::{MOST_START, Refusal};

/// x and y.
pub type Corner = (i32, i32);

/// The corner without a parent.
pub const ROOT: Corner = (0, 0);

/// One step on: 0 east, 1 north, 2 west, 3 south.
pub fn stepped((x, y): Corner, step: u8) -> Corner {
    let (east, north) = [(1, 0), (0, 1), (-1, 0), (0, -1)][usize::from(step)];
    (x + east, y + north)
}

/// p0 to pn of the walk of these steps.
pub fn corners(start: Corner, steps: &[u8]) -> Vec<Corner> {
    let mut corners = vec![start];
    for &step in steps {
        corners.push(stepped(*corners.last().unwrap(), step));
    }
    corners
}

/// Half the magnitude of each coordinate, rounded down, with the sign kept; the root has no parent.
pub fn parent((x, y): Corner) -> Option<Corner> {
    let half = |v: i32| v.signum() * (v.abs() / 2);
    ((x, y) != ROOT).then(|| (half(x), half(y)))
}

/// The corner, its parent, and so on up to the root.
pub fn lineage(corner: Corner) -> impl Iterator<Item = Corner> {
    std::iter::successors(Some(corner), |&c| parent(c))
}

/// Refusal 10.
pub fn judge_start((x, y): Corner) -> Result<(), Refusal> {
    let range = -MOST_START..=MOST_START;
    if range.contains(&x) && range.contains(&y) {
        Ok(())
    } else {
        Err(Refusal::StartRange)
    }
}
