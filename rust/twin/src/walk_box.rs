//! The box of a walk, in one pass over its steps, and places in it.

/// How many columns and rows of corners the box has, the place of the start in it, and whether the walk ends there.
pub struct WalkBox {
    pub width: usize,
    pub height: usize,
    pub from: usize,
    pub closed: bool,
}

impl WalkBox {
    pub fn of(chain: &[u8]) -> WalkBox {
        let (dx, dy) = ([1, 0, usize::MAX, 0], [0, 1, 0, usize::MAX]);
        const MIDDLE: usize = 16_384;
        let (mut x, mut y) = (MIDDLE, MIDDLE);
        let (mut west, mut east, mut south, mut north) = (x, x, y, y);
        for &step in chain {
            x = x.wrapping_add(dx[usize::from(step)]);
            y = y.wrapping_add(dy[usize::from(step)]);
            (west, east) = (west.min(x), east.max(x));
            (south, north) = (south.min(y), north.max(y));
        }
        let width = east - west + 1;
        WalkBox {
            width,
            height: north - south + 1,
            from: (MIDDLE - south) * width + (MIDDLE - west),
            closed: (x, y) == (MIDDLE, MIDDLE),
        }
    }

    /// Corners of the box.
    pub fn size(&self) -> usize {
        self.width * self.height
    }

    /// What each step adds to a place.
    pub fn by(&self) -> [usize; 4] {
        [1, self.width, usize::MAX, self.width.wrapping_neg()]
    }
}
