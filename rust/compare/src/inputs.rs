//! Walks and lines for tests and benchmarks; the same seed gives the same inputs everywhere.

use std::collections::{HashMap, HashSet};

use answer::{MARK_WORDS, MOST_LINE_DIGITS, MOST_STEPS, PAIR_RECORD_WORDS, RECORD_WORDS};

use crate::Starts;

/// A stream of numbers from a seed (splitmix64).
pub struct Random(pub u64);

impl Random {
    pub fn number(&mut self) -> u64 {
        self.0 = self.0.wrapping_add(0x9e37_79b9_7f4a_7c15);
        let z = (self.0 ^ (self.0 >> 30)).wrapping_mul(0xbf58_476d_1ce4_e5b9);
        let z = (z ^ (z >> 27)).wrapping_mul(0x94d0_49bb_1331_11eb);
        z ^ (z >> 31)
    }

    /// A number below the end, which is not 0.
    pub fn below(&mut self, end: usize) -> usize {
        (self.number() % end as u64) as usize
    }

    /// True once in this many times.
    pub fn once_in(&mut self, times: usize) -> bool {
        self.below(times) == 0
    }

    /// A length up to the end, short ones as likely as long ones.
    pub fn length(&mut self, end: usize) -> usize {
        let end = (end >> self.below(12)).max(2);
        self.below(end + 1)
    }

    pub fn step(&mut self) -> u8 {
        self.below(4) as u8
    }
}

/// n steps in one direction.
pub fn straight(n: usize, way: u8) -> Vec<u8> {
    vec![way; n]
}

/// n steps east and north in turn.
pub fn stairs(n: usize) -> Vec<u8> {
    [0, 1].into_iter().cycle().take(n).collect()
}

/// n steps outwards on a square spiral.
pub fn spiral(n: usize) -> Vec<u8> {
    let sides = (0_usize..).flat_map(|side| vec![(side % 4) as u8; side / 2 + 1]);
    sides.take(n).collect()
}

/// n steps up and down teeth of this height.
pub fn comb(n: usize, height: usize) -> Vec<u8> {
    let tooth = [vec![1; height], vec![0], vec![3; height], vec![0]].concat();
    tooth.into_iter().cycle().take(n).collect()
}

/// n steps out along a tree: a stem with twigs of this length on both sides, each walked there and back.
pub fn brush(n: usize, length: usize) -> Vec<u8> {
    let twig = |out: u8| [vec![out; length], vec![(out + 2) % 4; length]].concat();
    let part = [vec![0], twig(1), twig(3)].concat();
    part.into_iter().cycle().take(n).collect()
}

/// n steps round figures of eight with loops of this side, each one further on.
pub fn eights(n: usize, side: usize) -> Vec<u8> {
    let loops = [0, 1, 2, 3, 2, 3, 0, 1].map(|way| vec![way; side]).concat();
    let part = [loops, vec![0]].concat();
    part.into_iter().cycle().take(n).collect()
}

/// n steps to and fro along rows of this width and then along columns, so that they make a lattice.
pub fn lattice(n: usize, width: usize) -> Vec<u8> {
    let snake = |ahead: u8, aside: u8| {
        let two = [
            vec![ahead; width],
            vec![aside],
            vec![(ahead + 2) % 4; width],
            vec![aside],
        ];
        two.concat().repeat(width / 2 + 1)
    };
    let part = [snake(0, 1), snake(3, 0), snake(2, 1), snake(3, 2)].concat();
    part.into_iter().cycle().take(n).collect()
}

/// The outline of the first panels, as many as give it n steps, n even and at least 4: counterclockwise from (0,0), the
/// lower left corner of the first panel. Each panel has one side in common with those before it, and touches no other.
fn outline(n: usize, panels: impl Iterator<Item = (i32, i32)>) -> Vec<u8> {
    round(panels.take(n / 2 - 1), (0, 0))
}

/// The outline of these panels, which make one room: counterclockwise from a corner of it.
fn round(panels: impl Iterator<Item = (i32, i32)>, corner: (i32, i32)) -> Vec<u8> {
    let mut sides = HashMap::new();
    for (x, y) in panels {
        for (way, from) in (0..).zip([(x, y), (x + 1, y), (x + 1, y + 1), (x, y + 1)]) {
            let to = stepped(from, way);
            // A side that is walked the other way already lies between two panels.
            if sides.remove(&(to, (way + 2) % 4)).is_none() {
                sides.insert((from, way), to);
            }
        }
    }
    let next = |&(at, _): &((i32, i32), u8)| {
        let way = (0..4).find(|&way| sides.contains_key(&(at, way)))?;
        Some((sides[&(at, way)], way))
    };
    let start = (corner, 0);
    std::iter::successors(next(&start), next)
        .take(sides.len())
        .map(|(_, way)| way)
        .collect()
}

fn stepped((x, y): (i32, i32), way: u8) -> (i32, i32) {
    let (east, north) = [(1, 0), (0, 1), (-1, 0), (0, -1)][usize::from(way)];
    (x + east, y + north)
}

/// A room of n steps, n even: a spiral corridor, one panel wide.
pub fn closed_spiral(n: usize) -> Vec<u8> {
    let ways = (0_usize..).flat_map(|side| vec![(side % 4) as u8; side / 2 * 2 + 2]);
    let mut at = (0, 0);
    let rest = ways.map(move |way| {
        at = stepped(at, way);
        at
    });
    outline(n, std::iter::once((0, 0)).chain(rest))
}

/// A room of n steps, n even: a corridor with teeth of this height at every other panel.
pub fn closed_comb(n: usize, height: i32) -> Vec<u8> {
    let tooth = move |x: i32| {
        (0..=height)
            .map(move |y| (2 * x, y))
            .chain([(2 * x + 1, 0)])
    };
    outline(n, (0..).flat_map(tooth))
}

/// A room of n steps, n even: a corridor, one panel wide, that goes on east or north at random, so that its box is large.
pub fn corridor(n: usize, random: &mut Random) -> Vec<u8> {
    let mut at = (0, 0);
    let rest = (0..n / 2).map(|_| {
        at = stepped(at, random.below(2) as u8);
        at
    });
    outline(n, std::iter::once((0, 0)).chain(rest))
}

/// The outline of rows of panels one above the other, each from its first panel to before its last; neighbours overlap.
fn stacked(rows: &[(i32, i32)]) -> Vec<u8> {
    let along =
        |from: i32, to: i32| vec![if from < to { 0 } else { 2 }; from.abs_diff(to) as usize];
    let (bottom, top) = (rows[0], rows[rows.len() - 1]);
    let mut steps = along(bottom.0, bottom.1);
    for (k, row) in rows.iter().enumerate() {
        steps.push(1);
        steps.extend(along(row.1, rows.get(k + 1).map_or(row.1, |next| next.1)));
    }
    steps.extend(along(top.1, top.0));
    for (k, row) in rows.iter().enumerate().rev() {
        steps.push(3);
        steps.extend(along(row.0, rows[k.saturating_sub(1)].0));
    }
    steps
}

/// The rows of the panels whose centres lie in an oval, which is this wide and has n / 2 less that many rows.
fn oval_rows(n: usize, width: usize) -> Vec<(i32, i32)> {
    let (w, h) = (width as i64, (n / 2 - width) as i64);
    let within = |x: i64, y: i64| (x * h).pow(2) + (y * w).pow(2) <= (w * h).pow(2);
    let row = |k: i64| {
        let held = |x: &i64| within(2 * x + 1 - w, 2 * k + 1 - h);
        let left = (0..=(w - 1) / 2).find(held).unwrap_or((w - 1) / 2);
        (left as i32, (w - left) as i32)
    };
    (0..h).map(row).collect()
}

/// A convex room of n steps, n even, unless it is very flat or narrow: an oval of this width.
pub fn oval(n: usize, width: usize) -> Vec<u8> {
    stacked(&oval_rows(n, width))
}

/// The same with a panel more or less in one row.
pub fn dented(n: usize, width: usize, random: &mut Random) -> Vec<u8> {
    let mut rows = oval_rows(n, width);
    let k = random.below(rows.len());
    let (left, right) = &mut rows[k];
    match random.below(4) {
        0 => *left -= 1,
        1 => *right += 1,
        2 if *left + 1 < *right => *left += 1,
        3 if *left + 1 < *right => *right -= 1,
        _ => {}
    }
    stacked(&rows)
}

/// Calls `each` with every room of up to `longest` steps, from each of its corners, both ways round.
pub fn every_room(longest: usize, each: &mut impl FnMut(&[u8])) {
    fn go(
        path: &mut Vec<(i32, i32)>,
        steps: &mut Vec<u8>,
        most: usize,
        each: &mut impl FnMut(&[u8]),
    ) {
        let (x, y) = path[path.len() - 1];
        for way in 0..4 {
            let next = stepped((x, y), way);
            let far = (next.0.unsigned_abs() + next.1.unsigned_abs()) as usize;
            steps.push(way);
            if next == (0, 0) && steps.len() >= 4 {
                each(steps);
            } else if steps.len() + far <= most && !path.contains(&next) {
                path.push(next);
                go(path, steps, most, each);
                path.pop();
            }
            steps.pop();
        }
    }
    go(&mut vec![(0, 0)], &mut Vec::new(), longest, each);
}

/// A room of n steps, n even: one panel wide and as high as can be, so that every row is a span.
pub fn tower(n: usize) -> Vec<u8> {
    let side = n / 2 - 1;
    [vec![0], vec![1; side], vec![2], vec![3; side]].concat()
}

/// n steps, each in a random direction.
pub fn wander(n: usize, random: &mut Random) -> Vec<u8> {
    (0..n).map(|_| random.step()).collect()
}

/// A room of n steps, n even and at least 8: out along the floor, and back over columns of random height.
pub fn room(n: usize, random: &mut Random) -> Vec<u8> {
    let columns = n / 4;
    let mut heights = vec![1; columns + 2];
    heights[0] = 0;
    heights[columns + 1] = 0;
    let mut length = 2 * columns as isize + 2;
    while length < n as isize {
        let column = 1 + random.below(columns);
        for beside in [column - 1, column + 1] {
            length += if heights[beside] <= heights[column] {
                1
            } else {
                -1
            };
        }
        heights[column] += 1;
    }
    let mut steps = vec![0; columns];
    for column in (0..=columns).rev() {
        let (before, height): (usize, usize) = (heights[column + 1], heights[column]);
        steps.extend(vec![
            if before < height { 1 } else { 3 };
            before.abs_diff(height)
        ]);
        if column > 0 {
            steps.push(2);
        }
    }
    steps
}

/// A room of n steps, n even and at least 4, that grew panel by panel at random places.
pub fn grown(n: usize, random: &mut Random) -> Vec<u8> {
    // The panels round a panel: those that share a side with it have even places.
    const RING: [(i32, i32); 8] = [
        (1, 0),
        (1, 1),
        (0, 1),
        (-1, 1),
        (-1, 0),
        (-1, -1),
        (0, -1),
        (1, -1),
    ];
    let beside = |(x, y): (i32, i32)| RING.map(|(east, north)| (x + east, y + north));
    let mut panels = HashSet::from([(0, 0)]);
    let mut next: Vec<_> = beside((0, 0)).into_iter().step_by(2).collect();
    let mut sides = 4;
    while sides < n {
        let panel = next.swap_remove(random.below(next.len()));
        let held = beside(panel).map(|near| panels.contains(&near));
        let borders = (0..8).filter(|&i| held[i] != held[(i + 1) % 8]).count();
        let shared = held.iter().step_by(2).filter(|&&held| held).count();
        // The panel touches the room along one piece of its outline, or else there would be a hole or a corner twice.
        if !panels.contains(&panel) && borders == 2 && shared > 0 {
            panels.insert(panel);
            sides = sides + 4 - 2 * shared;
            next.extend(beside(panel).into_iter().step_by(2));
        }
    }
    let least = *panels.iter().min().expect("there is a panel");
    round(panels.into_iter(), least)
}

/// A room whose box has this many columns and rows of corners, three or more each: a rectangle with notches of this depth in its lower side.
pub fn notched(columns: usize, rows: usize, depth: usize) -> Vec<u8> {
    let (wide, high) = (columns - 1, rows - 1);
    let depth = depth.min(high - 1);
    let mut steps = Vec::new();
    let mut x = 0;
    while x < wide {
        steps.push(0);
        x += 1;
        if x + 1 < wide {
            steps.extend([vec![1; depth], vec![0], vec![3; depth]].concat());
            x += 1;
        }
    }
    steps.extend([vec![1; high], vec![2; wide], vec![3; high]].concat());
    steps
}

/// The number of nodes that the walk from `start` needs at most at a moment, 1 if it has a fault.
pub fn most_nodes(start: (i32, i32), ops: &[u8]) -> usize {
    let mut table = vec![0; RECORD_WORDS * (4 * (ops.len() + 1) + 64)];
    let (mut marks, mut chain) = (vec![0; MARK_WORDS * ops.len()], vec![0; ops.len()]);
    let most = |marks: &[u32]| marks.iter().step_by(MARK_WORDS).copied().max().unwrap_or(0);
    match twin::walk(start, ops, &mut table, &mut marks, &mut chain) {
        Ok(facts) if ops.is_empty() => facts.nodes as usize,
        // A step taken back may leave fewer nodes than the start has alone, never fewer than one.
        Ok(_) => (most(&marks) as usize).max(alone(start)),
        Err(_) => 1,
    }
}

/// The nodes of the walk with no step.
fn alone(start: (i32, i32)) -> usize {
    let level = |v: i32| i32::BITS - v.unsigned_abs().leading_zeros();
    1 + level(start.0).max(level(start.1)) as usize
}

/// A start: the origin, an extreme, a corner where many parts of the tree meet, one of those out of range by one or more, or any.
pub fn start(random: &mut Random) -> (i32, i32) {
    let mut axis = || match random.below(12) {
        0..=3 => 0,
        4 => 16_384,
        5 => -16_384,
        6 => 16_383,
        7 => -16_383,
        8 => [16_385, -16_385, i32::MAX, i32::MIN][random.below(4)],
        9 => random.below(9) as i32 - 4,
        10 => (1 << random.below(15)) - random.below(3) as i32,
        _ => random.below(32_769) as i32 - 16_384,
    };
    (axis(), axis())
}

/// n operations; this many in a hundred are take-backs, if there is something to take; no fault, and no more steps
/// than may survive. `bias` of a hundred steps go east.
pub fn hesitant(n: usize, take_backs: usize, bias: usize, random: &mut Random) -> Vec<u8> {
    let mut surviving = 0;
    (0..n)
        .map(|_| {
            let back = random.below(100) < take_backs;
            if surviving == MOST_STEPS || surviving > 0 && back {
                surviving -= 1;
                return 4;
            }
            surviving += 1;
            if random.below(100) < bias {
                0
            } else {
                random.step()
            }
        })
        .collect()
}

/// n operations at a border between two parts of the tree, 2^level columns out: steps over it and back, many withdrawn.
pub fn border(n: usize, level: usize, random: &mut Random) -> Vec<u8> {
    let (out, turned) = (((1_usize << level) - 1).min(n), random.step());
    let mut ops = straight(out, 0);
    ops.extend(
        hesitant(n - out, 45, 0, random)
            .into_iter()
            .map(|op| match op {
                1 if random.once_in(2) => 0,
                3 if random.once_in(2) => 2,
                op => op,
            }),
    );
    let turn = |op: u8| if op == 4 { 4 } else { (op + turned) % 4 };
    ops.into_iter().map(turn).collect()
}

/// n operations: half of them steps, and then all of them taken back.
pub fn withdrawn(n: usize, random: &mut Random) -> Vec<u8> {
    let steps = (n / 2).min(MOST_STEPS);
    let mut ops = hesitant(steps, 0, 30, random);
    ops.extend(vec![4; steps]);
    ops
}

/// A room of about n steps with a step aside and back at some place, so that it comes to a corner again.
fn met_again(n: usize, random: &mut Random) -> Vec<u8> {
    let mut steps = match random.below(2) {
        0 => room(n, random),
        _ => corridor(n, random),
    };
    let (place, aside) = (random.below(steps.len()), random.step());
    steps.splice(place..place, [aside, (aside + 2) % 4]);
    steps
}

/// A walk of some kind with up to `most` operations; it may have a fault.
pub fn walk(most: usize, random: &mut Random) -> Vec<u8> {
    let n = random.length(most);
    let mut ops = match random.below(17) {
        0 => straight(n, random.step()),
        1 => spiral(n),
        2 => comb(n, 1 + random.below(40)),
        3 => wander(n, random),
        4 => room(n.clamp(8, MOST_STEPS) & !1, random),
        5 => hesitant(n, random.below(50), 0, random),
        6 => hesitant(n, 25, random.below(100), random),
        7 => hesitant(n, 48, 90, random),
        8 => border(n, random.below(14), random),
        9 => withdrawn(n, random),
        10 => closed_spiral(n.clamp(4, MOST_STEPS) & !1),
        11 => closed_comb(n.clamp(4, MOST_STEPS) & !1, random.below(40) as i32),
        // Rooms of few panels for their steps, as `plain` counts panels one by one.
        12 => grown(n.clamp(4, 2_048) & !1, random),
        13 => {
            let n = n.clamp(8, 1_024) & !1;
            dented(n, 1 + random.below(n / 4), random)
        }
        14 => corridor(n.clamp(4, MOST_STEPS) & !1, random),
        15 => met_again(n.clamp(8, MOST_STEPS) & !1, random),
        _ => [0, 2].repeat(n / 2),
    };
    if random.once_in(12) && !ops.is_empty() {
        let place = random.below(ops.len());
        ops[place] = random.number() as u8;
    }
    ops
}

/// The operations of two parties one after the other, at most this many of one at a time.
pub fn mixed(first: &[u8], second: &[u8], most: usize, random: &mut Random) -> Vec<u8> {
    let (mut left, mut ops) = ([first, second], Vec::new());
    while left.iter().any(|own| !own.is_empty()) {
        let q = random.below(2);
        let (now, later) = left[q].split_at(left[q].len().min(1 + random.below(most)));
        ops.extend(now.iter().map(|op| op.wrapping_add(16 * q as u8)));
        left[q] = later;
    }
    ops
}

/// n bytes of two parties: one fills the table; the other frees a low record, fills it again and needs one record more, again and again.
pub fn refilled(n: usize) -> Vec<u8> {
    let again = [0x14, 0x12, 0x12, 0x14].into_iter().cycle();
    let filling = std::iter::once(0x12).chain(straight(n / 2, 0));
    filling.chain(again).take(n).collect()
}

/// The number of nodes that two parties need at most at a moment, 1 if there is a fault.
pub fn most_pair_nodes(starts: Starts, ops: &[u8]) -> usize {
    let n = ops.len();
    let mut table = vec![0; PAIR_RECORD_WORDS * (4 * n + 136)];
    let (mut marks, mut chains) = (vec![0; MARK_WORDS * n], vec![0; 2 * n]);
    let (first, second) = chains.split_at_mut(n);
    match twin::walk_two(starts, ops, &mut table, &mut marks, [first, second]) {
        // The first operation is a step, after which there are as many nodes as before it or more.
        Ok(facts) => {
            let nodes = marks.iter().step_by(MARK_WORDS).copied().max();
            nodes.unwrap_or(facts.nodes) as usize
        }
        Err(_) => 1,
    }
}

/// Two starts, equal, near each other, or any; and a walk of some kind for each, with up to `most` operations together. There may be a fault.
pub fn pair(most: usize, random: &mut Random) -> (Starts, Vec<u8>) {
    let one = start(random);
    let other = match random.below(8) {
        0..=2 => one,
        3..=5 => {
            let mut near = |v: i32| v.saturating_add(random.below(9) as i32 - 4);
            (near(one.0), near(one.1))
        }
        6 => (0, 0),
        _ => start(random),
    };
    let (first, second) = (walk(most / 2, random), walk(most / 2, random));
    let at_a_time = [1, 2, 5, 40, usize::MAX][random.below(5)];
    let mut ops = mixed(&first, &second, at_a_time, random);
    if random.once_in(12) && !ops.is_empty() {
        let place = random.below(ops.len());
        ops[place] = random.below(40) as u8;
    }
    ([one, other], ops)
}

/// A polygon of one ring with these points, x and y each, in either byte order.
pub fn polygon(points: &[(f64, f64)], little: bool) -> Vec<u8> {
    let order = |bytes: &[u8]| match little {
        true => bytes.to_vec(),
        false => bytes.iter().rev().copied().collect(),
    };
    let mut file = vec![u8::from(little)];
    for number in [3, 1, points.len() as u32] {
        file.extend(order(&number.to_le_bytes()));
    }
    for (x, y) in points {
        file.extend(order(&x.to_le_bytes()));
        file.extend(order(&y.to_le_bytes()));
    }
    file
}

/// The points of the walk of `chain` from `start`: its ends, each corner where it turns, and now and then one on a straight wall.
pub fn points(
    start: (i32, i32),
    chain: &[u8],
    between: usize,
    random: &mut Random,
) -> Vec<(f64, f64)> {
    let mut at = start;
    let mut corners = vec![at];
    for (k, &step) in chain.iter().enumerate() {
        at = stepped(at, step % 4);
        if chain.get(k + 1) != Some(&step) || random.once_in(between) {
            corners.push(at);
        }
    }
    let millimetres = |v: i32| 600.0 * f64::from(v);
    corners
        .into_iter()
        .map(|(x, y)| (millimetres(x), millimetres(y)))
        .collect()
}

/// Floats at which a coordinate is tried: zeros, the ends of both ranges and one step or one panel past each, fractions, the least and the
/// largest numbers, and what is none.
pub fn special() -> Vec<f64> {
    let mut floats = vec![
        0.0, 0.1, 300.0, 599.9, 600.0, 600.1, 601.0, 1_200.0, 1e9, 1e300,
    ];
    for end in [600.0, 9_830_400.0, 19_660_800.0_f64] {
        floats.extend([
            end,
            end.next_up(),
            end.next_down(),
            end + 600.0,
            end - 600.0,
            end + 0.1,
        ]);
    }
    floats.extend([
        f64::from_bits(1),
        f64::MIN_POSITIVE,
        f64::MAX,
        f64::INFINITY,
    ]);
    floats.extend([
        f64::from_bits(1 << 52 | 1),
        2_f64.powi(32),
        600.0 * 2_f64.powi(40),
    ]);
    for nan in [
        0x7ff0_0000_0000_0001,
        0x7ff8_0000_0000_0000,
        0x7fff_ffff_ffff_ffff,
    ] {
        floats.push(f64::from_bits(nan));
    }
    let negative: Vec<f64> = floats
        .iter()
        .map(|float| f64::from_bits(float.to_bits() | 1 << 63))
        .collect();
    [floats, negative].concat()
}

/// A file: mostly a ring of up to `most` steps, in either byte order, now and then damaged.
pub fn file(most: usize, random: &mut Random) -> Vec<u8> {
    let mut chain = walk(most, random);
    chain.retain(|&step| step < 4);
    if random.once_in(3) {
        let back: Vec<u8> = chain.iter().rev().map(|step| (step + 2) % 4).collect();
        chain.extend(back);
    }
    let between = [1, 2, 5, usize::MAX][random.below(4)];
    let mut points = points(start(random), &chain, between, random);
    let place = random.below(points.len());
    match random.below(12) {
        0 => points[place].0 = special()[random.below(special().len())],
        1 => points[place].1 = f64::from_bits(random.number()),
        2 => points.insert(place, points[place]),
        3 => points[place].1 += 600.0 * random.below(9) as f64,
        4 => {
            points.remove(place);
        }
        _ => {}
    }
    let mut file = polygon(&points, random.once_in(2));
    let place = random.below(file.len());
    match random.below(12) {
        0 => file[place] = random.number() as u8,
        1 => file.truncate(place),
        2 => file.push(0),
        3 => file[random.below(13)] ^= 1 << random.below(8),
        _ => {}
    }
    file
}

/// The frame of these digits.
pub fn frame(kind: u8, digits: &[u8]) -> Vec<u8> {
    let mut line = format!("{kind:02x}{:04x}", digits.len());
    line.extend(
        digits
            .iter()
            .map(|&digit| char::from_digit(u32::from(digit) % 16, 16).unwrap()),
    );
    line.into_bytes()
}

/// A line: a frame, a damaged frame, or bytes; it has no line feed.
pub fn line(random: &mut Random) -> Vec<u8> {
    let kind = random.below(2) as u8;
    let mut digits = if kind == 0 {
        walk(MOST_LINE_DIGITS, random)
    } else {
        let n = random.length(MOST_LINE_DIGITS);
        wander(n, random)
    };
    if random.once_in(40) {
        digits = wander(MOST_LINE_DIGITS + random.below(3), random);
    }
    let mut line = frame(kind, &digits);
    let place = random.below(line.len());
    match random.below(16) {
        0 => line[place] = random.number() as u8,
        1 => line[place] = b"0123456789abcdefABCDEF "[random.below(23)],
        2 => line.truncate(place),
        3 => line.insert(place, b'0'),
        4 => line = (0..place).map(|_| random.number() as u8).collect(),
        5 => line[random.below(6)] = b'0' + random.below(10) as u8,
        _ => {}
    }
    line.retain(|&byte| byte != b'\n');
    line
}

/// Lines one after the other, mostly each with its line feed.
pub fn lines(count: usize, random: &mut Random) -> Vec<u8> {
    let mut input = Vec::new();
    for _ in 0..count {
        match random.below(20) {
            0 => {}
            1 => input.extend(vec![b'0'; random.length(200_000)]),
            _ => input.extend(line(random)),
        }
        input.push(b'\n');
    }
    if random.once_in(2) {
        input.pop();
    }
    input
}
