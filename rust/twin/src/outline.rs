//! The outer outline: the ways that were walked at each corner in a map of the walk's box; if the box is large, corners in a digital
//! tree of their keys, links along the walked edges, and two passes round.

use answer::Refusal;

use crate::hull;
use crate::tree::{Corner, back};
use crate::walk_box::WalkBox;

/// Rows in a column of keys.
const ROWS: u32 = 32_769;

/// Writes the steps of the outer outline of the walk of `chain` from `start` to the start of `out`, and answers how many there are.
pub fn outline(start: (i32, i32), chain: &[u8], out: &mut [u8]) -> Result<usize, Refusal> {
    hull::judge(Corner::from(start), chain)?;
    if chain.is_empty() {
        return Ok(0);
    }
    let walk = WalkBox::of(chain);
    match (chain.len(), walk.size()) {
        (_, 0..=4_096) => write_in(&walk, chain, [0; 4_096], out),
        (0..=256, _) => Store::new([0; 257], [[0; 2]; 257], [[0; 4]; 257]).write(chain, out),
        (_, 0..=32_768) => write_in(&walk, chain, [0; 32_768], out),
        (0..=2_048, _) => {
            Store::new([0; 2_049], [[0; 2]; 2_049], [[0; 4]; 2_049]).write(chain, out)
        }
        (_, 0..=262_144) => write_in(&walk, chain, [0; 262_144], out),
        _ => Store::new([0; 16_385], [[0; 2]; 16_385], [[0; 4]; 16_385]).write(chain, out),
    }
    .ok_or(Refusal::OutlineRoom)
}

/// Marks the ways of the walk in a map of its box, with a byte for each corner and a bit for each way, and writes the outline, if the buffer is long enough.
fn write_in<const N: usize>(
    walk: &WalkBox,
    chain: &[u8],
    mut map: [u8; N],
    out: &mut [u8],
) -> Option<usize> {
    // Places go column after column, so that the least is that of the lowest of the leftmost corners.
    let h = walk.height;
    let by = [h, 1, h.wrapping_neg(), usize::MAX];
    let go = |place: usize, way: u8| place.wrapping_add(by[usize::from(way)]);
    let mut at = walk.from % walk.width * h + walk.from / walk.width;
    let (mut home, mut last) = (at, 0);
    for &way in chain {
        map[at] |= last | 1 << way;
        at = go(at, way);
        home = home.min(at);
        last = 1 << back(way);
    }
    map[at] |= last;
    let first = (home, u8::from(map[home] & 1 == 0));
    let next = |(place, way): (usize, u8)| {
        let to = go(place, way);
        (to, turn(map[to], way))
    };
    if out.len() < 2 * chain.len() {
        let (mut now, mut count) = (next(first), 1);
        while now != first {
            now = next(now);
            count += 1;
        }
        if out.len() < count {
            return None;
        }
    }
    out[0] = first.1;
    let (mut now, mut count) = (next(first), 1);
    while now != first {
        out[count] = now.1;
        now = next(now);
        count += 1;
    }
    Some(count)
}

/// The way on from a corner with these ways: the first that was walked of right turn, straight on, left turn, back.
fn turn(ways: u8, way: u8) -> u8 {
    let [right, left] = [(way + 3) % 4, (way + 1) % 4];
    if ways >> right & 1 == 1 {
        right
    } else if ways >> way & 1 == 1 {
        way
    } else if ways >> left & 1 == 1 {
        left
    } else {
        back(way)
    }
}

/// The different corners of a walk: their keys, the two children of each in the tree, and 1 + the corner that a walked edge leads
/// to in each direction.
struct Store<const N: usize> {
    keys: [u32; N],
    children: [[u16; 2]; N],
    links: [[u16; 4]; N],
    used: usize,
}

impl<const N: usize> Store<N> {
    fn new(keys: [u32; N], children: [[u16; 2]; N], links: [[u16; 4]; N]) -> Self {
        Store {
            keys,
            children,
            links,
            used: 1,
        }
    }

    /// The number of the corner with this key, which is added if it is not there.
    fn enter(&mut self, key: u32) -> usize {
        let (mut node, mut rest) = (0, key);
        while self.keys[node] != key {
            let child = &mut self.children[node][(rest % 2) as usize];
            if *child == 0 {
                *child = self.used as u16;
                self.keys[self.used] = key;
                self.used += 1;
            }
            node = usize::from(*child);
            rest /= 2;
        }
        node
    }

    /// Links the corners of the walk, and gives the lowest of the leftmost.
    fn link(&mut self, chain: &[u8]) -> usize {
        let mut key = ROWS * 16_384 + 16_384;
        self.keys[0] = key;
        let (mut node, mut home, mut least) = (0, 0, key);
        for &way in chain {
            key = match way {
                0 => key + ROWS,
                1 => key + 1,
                2 => key - ROWS,
                _ => key - 1,
            };
            let link = self.links[node][usize::from(way)];
            node = if link == 0 {
                let to = self.enter(key);
                self.links[node][usize::from(way)] = (to + 1) as u16;
                self.links[to][usize::from(back(way))] = (node + 1) as u16;
                to
            } else {
                usize::from(link) - 1
            };
            if key < least {
                (home, least) = (node, key);
            }
        }
        home
    }

    /// The corner and the way that follow: the first walked edge of right turn, straight on, left turn, back.
    fn next(&self, node: usize, way: u8) -> (usize, u8) {
        let to = usize::from(self.links[node][usize::from(way)]) - 1;
        let links = &self.links[to];
        let walked = |way: &u8| links[usize::from(*way)] > 0;
        let ways = [(way + 3) % 4, way, (way + 1) % 4];
        (to, ways.into_iter().find(walked).unwrap_or(back(way)))
    }

    /// Writes the outline, if the buffer is long enough.
    fn write(mut self, chain: &[u8], out: &mut [u8]) -> Option<usize> {
        let home = self.link(chain);
        let first = (home, u8::from(self.links[home][0] == 0));
        let mut count = 1;
        let (mut node, mut way) = self.next(first.0, first.1);
        while (node, way) != first {
            (node, way) = self.next(node, way);
            count += 1;
        }
        for place in out.get_mut(..count)? {
            *place = way;
            (node, way) = self.next(node, way);
        }
        Some(count)
    }
}
