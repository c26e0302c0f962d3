//! The hull by columns: the lowest and the highest y of each, and a scan over each side.

use answer::{MOST_INPUT, MOST_STEPS, Refusal};

use crate::tree::{Corner, judge_start};

/// Writes x and y of each hull corner of the walk of `chain` from `start`, and answers how many there are.
pub fn hull(start: (i32, i32), chain: &[u8], out: &mut [i32]) -> Result<usize, Refusal> {
    let start = Corner::from(start);
    judge(start, chain)?;
    let list = hull_list(start, chain);
    if out.len() < 2 * list.len() {
        return Err(Refusal::HullRoom);
    }
    for (pair, corner) in out.chunks_exact_mut(2).zip(&list) {
        pair[0] = corner.x;
        pair[1] = corner.y;
    }
    Ok(list.len())
}

/// Refusals 1, 10, 4 and 6.
pub fn judge(start: Corner, chain: &[u8]) -> Result<(), Refusal> {
    if chain.len() > MOST_INPUT {
        return Err(Refusal::TooMany);
    }
    judge_start(start)?;
    let bad = chain.iter().take(MOST_STEPS + 1).position(|&step| step > 3);
    match bad {
        Some(place) => Err(Refusal::BadDigit(place as u32)),
        None if chain.len() > MOST_STEPS => Err(Refusal::TooLong(MOST_STEPS as u32)),
        None => Ok(()),
    }
}

/// The hull corners of the walk of good steps, counterclockwise from the lowest of the leftmost.
pub fn hull_list(start: Corner, chain: &[u8]) -> Vec<Corner> {
    let (west, east) = extent(chain);
    if chain.len() < 32 {
        return list(start, chain, west, east, [BLANK; 32], [BLANK; 32]);
    }
    match east - west {
        0..256 => list(start, chain, west, east, [BLANK; 256], [BLANK; 256]),
        256..2_048 => list(start, chain, west, east, [BLANK; 2_048], [BLANK; 2_048]),
        _ => list(start, chain, west, east, [BLANK; 16_385], [BLANK; 16_385]),
    }
}

/// What each step adds to a column and to a height.
const EAST: [u32; 4] = [1, 0, u32::MAX, 0];
const NORTH: [u16; 4] = [0, 1, 0, u16::MAX];
/// The column and the height of the start, and twice that height.
const MIDDLE: u32 = 16_384;
const LEVEL: u16 = 16_384;
const TOP: u16 = 32_768;
/// What a column has before the walk comes there.
const BLANK: u16 = u16::MAX;

/// The westmost and the eastmost column.
fn extent(chain: &[u8]) -> (u32, u32) {
    let (mut x, mut west, mut east) = (MIDDLE, MIDDLE, MIDDLE);
    for &step in chain {
        x = x.wrapping_add(EAST[usize::from(step % 4)]);
        (west, east) = (west.min(x), east.max(x));
    }
    (west, east)
}

/// The same in a store that is large enough for the columns: the least height of each, and the least of the heights turned upside down.
fn list<const N: usize>(
    start: Corner,
    chain: &[u8],
    west: u32,
    east: u32,
    mut low: [u16; N],
    mut high: [u16; N],
) -> Vec<Corner> {
    let columns = (east - west + 1) as usize;
    let (low, high) = (&mut low[..columns], &mut high[..columns]);
    let mut keep = |x: u32, y: u16| {
        let column = x as usize;
        low[column] = low[column].min(y);
        high[column] = high[column].min(TOP - y);
    };
    let (mut x, mut y) = (MIDDLE - west, LEVEL);
    for &step in chain {
        keep(x, y);
        x = x.wrapping_add(EAST[usize::from(step % 4)]);
        y = y.wrapping_add(NORTH[usize::from(step % 4)]);
    }
    keep(x, y);
    high.reverse();
    // The corners of one side, from their columns and heights.
    let corner = |x: u32, y: u16| Corner {
        x: start.x + x.wrapping_sub(MIDDLE).cast_signed(),
        y: start.y + i32::from(y) - i32::from(LEVEL),
    };
    let mut list = Vec::new();
    let below = (west..).zip(&*low);
    scan(&mut list, below.map(|(x, &y)| corner(x, y)));
    // The upper side begins and ends where the lower does if that column has one corner.
    let lower = list.len();
    let above = (0..).zip(&*high);
    scan(&mut list, above.map(|(i, &y)| corner(east - i, TOP - y)));
    if list[lower - 1] == list[lower] {
        list.remove(lower);
    }
    if list.len() > 1 && list.last() == list.first() {
        list.pop();
    }
    list
}

/// Appends those of the corners, which are in order, at which their hull turns left.
fn scan(list: &mut Vec<Corner>, corners: impl Iterator<Item = Corner>) {
    let start = list.len();
    for c in corners {
        while let [.., a, b] = list[start..]
            && cross(a, b, c) <= 0
        {
            list.pop();
        }
        list.push(c);
    }
}

/// Above 0 if a, b, c turn left.
fn cross(a: Corner, b: Corner, c: Corner) -> i64 {
    i64::from(b.x - a.x) * i64::from(c.y - a.y) - i64::from(b.y - a.y) * i64::from(c.x - a.x)
}
