//! What is compared: all short inputs, every limit and one past it, random and damaged inputs of all lengths.

use answer::{
    CHAIN_ANSWER_WORDS, LINE_BYTES, MARK_WORDS, MOST_GRID, MOST_INPUT, MOST_LINE_DIGITS,
    MOST_PAIR_RECORDS, MOST_RECORDS, MOST_START, MOST_STEPS, ORTHOGONAL_ANSWER_WORDS,
    OVERLAY_ANSWER_WORDS, PAIR_RECORD_WORDS, POLYGON_ANSWER_WORDS, RECORD_WORDS,
    WALK_TWO_ANSWER_WORDS,
};

use crate::inputs::{self, Random};
use crate::{Library, Room, Starts, calls};

/// Every string of exactly this length over the digits below `digits`.
fn strings(length: u32, digits: u32) -> impl Iterator<Item = Vec<u8>> {
    let digit = move |code: u32, i| (code / digits.pow(i) % digits) as u8;
    (0..digits.pow(length)).map(move |code| (0..length).map(|i| digit(code, i)).collect())
}

/// Where a walk starts to which no start is given.
const ORIGIN: (i32, i32) = (0, 0);

/// A walk in buffers of the lengths that it asks, and a table of this many words.
fn walk(library: &Library, start: (i32, i32), ops: &[u8], words: usize) {
    calls::walk(
        library,
        start,
        ops,
        words,
        MARK_WORDS * ops.len(),
        ops.len(),
    );
}

/// A walk in the smallest table that is large enough, in one record less and in one more.
fn walk_near(library: &Library, start: (i32, i32), ops: &[u8]) {
    let right = inputs::most_nodes(start, ops);
    for records in right - 1..=right + 1 {
        walk(library, start, ops, RECORD_WORDS * records);
    }
}

/// Two parties in buffers of the lengths that they ask, and a table of this many words; gives the answer.
fn walk_two(
    library: &Library,
    starts: Starts,
    ops: &[u8],
    words: usize,
) -> [u32; WALK_TWO_ANSWER_WORDS] {
    let n = ops.len();
    calls::walk_two(library, starts, ops, words, MARK_WORDS * n, [n; 2])
}

/// Two parties in the smallest table that is large enough, in one record less and in one more.
fn pair_near(library: &Library, starts: Starts, ops: &[u8]) {
    let right = inputs::most_pair_nodes(starts, ops);
    for records in right - 1..=right + 1 {
        walk_two(library, starts, ops, PAIR_RECORD_WORDS * records);
    }
}

/// A hull in the shortest buffer that is long enough, in one number less and in one more.
fn hull_near(library: &Library, start: (i32, i32), chain: &[u8]) {
    let [number, _, count] = calls::hull(library, start, chain, 2 * chain.len() + 2);
    if number == 0 {
        let right = 2 * count as usize;
        for out in [right - 1, right, right + 1] {
            calls::hull(library, start, chain, out);
        }
    }
}

/// An outline in the shortest buffer that is long enough, in none, in one byte less and in one more; gives its steps.
fn outline_near(library: &Library, start: (i32, i32), chain: &[u8]) -> u32 {
    let [number, _, steps] = calls::outline(library, start, chain, 2 * chain.len());
    let right = steps as usize;
    for out in [0, right.saturating_sub(1), right, right + 1] {
        calls::outline(library, start, chain, out);
    }
    if number == 0 { steps } else { 0 }
}

/// A room as a polygon in the shortest buffer that is long enough, in one byte less and in one more.
fn polygon_near(library: &Library, start: (i32, i32), chain: &[u8]) {
    let [number, _, bytes] = calls::polygon(library, start, chain, 16 * chain.len() + 29);
    if number == 0 {
        let right = bytes as usize;
        for out in [0, right - 1, right, right + 1] {
            calls::polygon(library, start, chain, out);
        }
        back(library, start, chain, right);
    }
}

/// Reading the polygon of a room gives back start and chain.
fn back(library: &Library, start: (i32, i32), chain: &[u8], bytes: usize) {
    let (mut file, mut steps) = (vec![0; bytes], vec![9; chain.len()]);
    let (mut written, mut answer) = ([0; POLYGON_ANSWER_WORDS], [0; CHAIN_ANSWER_WORDS]);
    (library.polygon_of_room)(start, chain, &mut file, &mut written);
    (library.chain_of_polygon)(&file, &mut steps, &mut answer);
    let (x, y) = (start.0.cast_unsigned(), start.1.cast_unsigned());
    assert_eq!(answer, [0, 0, chain.len() as u32, x, y]);
    assert!(steps == chain);
}

/// A file with the shortest chain buffer that is long enough, with one byte less and with one more.
fn chain_near(library: &Library, file: &[u8]) {
    let [number, _, steps, _, _] = calls::chain(library, file, MOST_STEPS + 1);
    calls::chain(library, file, 0);
    if number == 0 {
        let right = steps as usize;
        for out in [right - 1, right, right + 1] {
            calls::chain(library, file, out);
        }
    }
}

/// A room by rows in the shortest buffer that is long enough, in one number less and in one more.
fn rows_near(library: &Library, start: (i32, i32), chain: &[u8]) {
    let [number, _, spans] = calls::rows(library, start, chain, 3 * chain.len());
    if number == 0 {
        let right = 3 * spans as usize;
        for out in [0, right - 1, right, right + 1] {
            calls::rows(library, start, chain, out);
        }
    }
}

/// Two rooms in the shortest buffers that are long enough, in those with one number more or less in one of them, and with none at all; gives the answer.
fn overlay_near(library: &Library, one: Room, other: Room) -> [u32; OVERLAY_ANSWER_WORDS] {
    let most = 3 * (one.1.len() + other.1.len()) / 2;
    let answer = calls::overlay(library, one, other, [most; 3]);
    let [number, _, _, _, _, spans @ ..] = answer;
    let right = spans.map(|spans| 3 * spans as usize);
    calls::overlay(library, one, other, [0; 3]);
    if number == 0 {
        calls::overlay(library, one, other, right);
        for part in 0..3 {
            let mut out = right;
            out[part] += 1;
            calls::overlay(library, one, other, out);
            out[part] = right[part].saturating_sub(1);
            calls::overlay(library, one, other, out);
        }
    }
    answer
}

/// The grid sizes that are tried: the least, some that split small rooms, powers of two, the greatest, and what is refused.
const GRIDS: [u32; 10] = [
    0,
    1,
    2,
    3,
    5,
    64,
    MOST_GRID - 1,
    MOST_GRID,
    MOST_GRID + 1,
    u32::MAX,
];

/// The orthogonal hull of a room in the shortest buffer that is long enough, in none, in one byte less, in one more and in one as
/// long as the chain, which is always long enough; gives the answer.
fn orthogonal_near(
    library: &Library,
    start: (i32, i32),
    chain: &[u8],
    grid: u32,
) -> [u32; ORTHOGONAL_ANSWER_WORDS] {
    let answer = calls::orthogonal(library, start, chain, grid, chain.len());
    let [number, _, steps, ..] = answer;
    assert_ne!(number, 18);
    if number == 0 {
        let right = steps as usize;
        for out in [0, right - 1, right, right + 1] {
            calls::orthogonal(library, start, chain, grid, out);
        }
    }
    answer
}

/// A start and a chain in every call on a room, with one grid size, which is chosen by the chain.
fn room_near(library: &Library, start: (i32, i32), chain: &[u8]) {
    polygon_near(library, start, chain);
    rows_near(library, start, chain);
    calls::convex(library, start, chain);
    let chosen = chain.iter().map(|&byte| usize::from(byte)).sum::<usize>() + chain.len();
    orthogonal_near(library, start, chain, GRIDS[chosen % GRIDS.len()]);
}

/// Both conversions in a buffer of the right length, of one less and of one more.
fn turns_near(library: &Library, digits: &[u8]) {
    for out in digits.len().saturating_sub(1)..=digits.len() + 1 {
        calls::turns(library, digits, out);
    }
}

/// Every walk of up to `longest` operations 0 to 5, in right and slightly wrong tables.
pub fn short_walks(library: &Library, longest: u32) {
    for ops in (0..=longest).flat_map(|length| strings(length, 6)) {
        walk_near(library, ORIGIN, &ops);
        let words = RECORD_WORDS * inputs::most_nodes(ORIGIN, &ops);
        walk(library, ORIGIN, &ops, words - 1);
        walk(library, ORIGIN, &ops, words + 1);
    }
}

/// Every chain of up to `longest` digits 0 to 4, as steps to a hull and to an outline, as a room and both ways between steps and turns.
pub fn short_chains(library: &Library, longest: u32) {
    for chain in (0..=longest).flat_map(|length| strings(length, 5)) {
        hull_near(library, ORIGIN, &chain);
        outline_near(library, ORIGIN, &chain);
        room_near(library, (1, -1), &chain);
        turns_near(library, &chain);
    }
}

/// Every byte at each place of every walk of up to four operations.
pub fn every_byte(library: &Library) {
    for mut ops in (1..=4).flat_map(|length| strings(length, 5)) {
        for place in 0..ops.len() {
            let kept = ops[place];
            for byte in 0..=u8::MAX {
                ops[place] = byte;
                walk(library, ORIGIN, &ops, RECORD_WORDS * 9);
                calls::hull(library, ORIGIN, &ops, 12);
                calls::outline(library, ORIGIN, &ops, 8);
                calls::polygon(library, (0, 0), &ops, 93);
                calls::rows(library, (0, 0), &ops, 3);
                calls::convex(library, (0, 0), &ops);
                calls::orthogonal(library, (0, 0), &ops, u32::from(byte % 4), 4);
                calls::turns(library, &ops, ops.len());
            }
            ops[place] = kept;
        }
    }
}

/// Every length of each buffer up to beyond the right one, together.
pub fn sizes(library: &Library) {
    for ops in [&[][..], &[0], &[4], &[5], &[1, 4, 1], &[0, 0, 1, 1]] {
        for table in 0..=RECORD_WORDS * 7 + 1 {
            for marks in 0..=MARK_WORDS * ops.len() + 3 {
                for chain in 0..=ops.len() + 2 {
                    calls::walk(library, ORIGIN, ops, table, marks, chain);
                }
            }
        }
        for out in 0..=12 {
            calls::hull(library, ORIGIN, ops, out);
            calls::outline(library, ORIGIN, ops, out);
            calls::turns(library, ops, out);
            calls::polygon(library, (0, 0), &[0, 1, 2, 3], 87 + out);
            calls::rows(library, (0, 0), &[0, 0, 1, 2, 1, 2, 3, 3], out);
            calls::orthogonal(library, (-1, 0), &[0, 0, 1, 2, 1, 2, 3, 3], 1, out);
            calls::line(library, &inputs::frame(0, ops), LINE_BYTES - 6 + out);
        }
    }
}

/// The largest table and one beyond, the longest input and one beyond, the longest walk and one step beyond.
pub fn limits(library: &Library) {
    let most = RECORD_WORDS * MOST_RECORDS;
    for words in [most - 1, most, most + 1, most + RECORD_WORDS] {
        walk(library, ORIGIN, &[0, 0, 1, 1, 4], words);
    }
    for n in [
        MOST_STEPS - 1,
        MOST_STEPS,
        MOST_STEPS + 1,
        MOST_INPUT,
        MOST_INPUT + 1,
    ] {
        for way in 0..4 {
            let mut ops = inputs::straight(n, way);
            limits_of(library, &ops);
            for (place, byte) in [(MOST_STEPS, 4), (MOST_STEPS, 5), (n - 1, 9), (0, 4)] {
                if place < n {
                    ops[place] = byte;
                    limits_of(library, &ops);
                    ops[place] = way;
                }
            }
        }
        limits_of(library, &inputs::withdrawn(n, &mut Random(n as u64)));
    }
}

/// One input near a limit, in every call, with right and wrong buffers.
fn limits_of(library: &Library, ops: &[u8]) {
    let words = RECORD_WORDS * (MOST_STEPS + 1);
    walk(library, ORIGIN, ops, words);
    walk(library, ORIGIN, ops, words - RECORD_WORDS);
    calls::walk(
        library,
        ORIGIN,
        ops,
        words - 1,
        MARK_WORDS * ops.len() - 1,
        ops.len(),
    );
    calls::walk(
        library,
        ORIGIN,
        ops,
        words,
        MARK_WORDS * ops.len(),
        ops.len() - 1,
    );
    hull_near(library, ORIGIN, ops);
    outline_near(library, ORIGIN, ops);
    outline_near(library, (0, -MOST_START - 1), ops);
    room_near(library, (0, 0), ops);
    room_near(library, (MOST_START + 1, 0), ops);
    turns_near(library, ops);
}

/// Rooms from every start at the ends of the range and one beyond, of every size of the working store and one beyond, begun at
/// each of their corners, walked both ways, and each with a step more, a step less and one corner twice.
pub fn rooms(library: &Library) {
    let ends = [
        i32::MIN,
        -MOST_START - 1,
        -MOST_START,
        -1,
        0,
        1,
        MOST_START,
        MOST_START + 1,
        i32::MAX,
    ];
    for x in ends {
        for y in ends {
            for chain in [&[0, 1, 2, 3][..], &[3, 2, 1, 0], &[0, 2], &[0, 1, 2], &[4]] {
                room_near(library, (x, y), chain);
            }
        }
    }
    let mut random = Random(7);
    for n in [8, 20, 254, 256, 258, 2_046, 2_048, 2_050, MOST_STEPS] {
        for chain in [
            inputs::room(n, &mut random),
            inputs::closed_spiral(n),
            inputs::closed_comb(n, 7),
            inputs::tower(n),
        ] {
            rooms_of(library, &chain, &mut random);
        }
    }
}

/// One room, and walks that are nearly one.
fn rooms_of(library: &Library, room: &[u8], random: &mut Random) {
    let mut chain = room.to_vec();
    for _ in 0..room.len().min(40) {
        room_near(library, inputs::start(random), &chain);
        outline_near(library, inputs::start(random), &chain);
        chain.rotate_left(1 + random.below(3));
    }
    chain.reverse();
    chain.iter_mut().for_each(|step| *step = (*step + 2) % 4);
    room_near(library, inputs::start(random), &chain);
    let twice = [&chain[..], &chain[..]].concat();
    for near in [
        &chain[1..],
        &chain[..chain.len() - 1],
        &twice[..chain.len() + 1],
        &twice,
    ] {
        room_near(library, (0, 0), near);
    }
    let place = random.below(chain.len());
    for inserted in [[0, 2], [1, 3], [2, 0], [3, 1]] {
        let mut crossed = chain.clone();
        crossed.splice(place..place, inserted);
        room_near(library, (0, 0), &crossed);
        outline_near(library, (0, 0), &crossed);
    }
}

/// Rooms whose boxes have as many corners as the maps of the room test and of the outline, and a few more, with few steps and with many; each
/// also with a corner twice, without its first step, and over itself.
pub fn boxes(library: &Library) {
    let mut random = Random(23);
    for (columns, rows) in [
        (16, 16),
        (3, 86),
        (32, 64),
        (3, 683),
        (64, 64),
        (65, 64),
        (128, 128),
        (129, 128),
        (128, 256),
        (129, 256),
        (256, 512),
        (257, 512),
        (512, 512),
        (512, 513),
        (3, 8_000),
        (8_000, 3),
    ] {
        for depth in [0, 1, 14, rows / 2] {
            let mut room = inputs::notched(columns, rows, depth);
            if room.len() > MOST_STEPS - 2 {
                continue;
            }
            room.rotate_left(random.below(columns + rows));
            let place = random.below(room.len());
            let aside = random.step();
            let mut crossed = room.clone();
            crossed.splice(place..place, [aside, (aside + 2) % 4]);
            for chain in [&room[..], &room[1..], &crossed] {
                polygon_near(library, (5, -9), chain);
                calls::convex(library, (5, -9), chain);
                outline_near(library, (5, -9), chain);
            }
            // `plain` counts panels one by one.
            if columns * rows < 20_000 {
                rows_near(library, (5, -9), &room);
                rows_near(library, (5, -9), &crossed);
                for grid in [1, 3, 16] {
                    orthogonal_near(library, (5, -9), &room, grid);
                }
                overlay_near(library, ((5, -9), &room), ((6, -7), &room));
            }
        }
    }
}

/// Outlines of trees, spirals, figures of eight, walks along one line, of one step and of none, crossed and lattice walks, from every start at
/// the ends of the range, of every size of the working store and one beyond; 32,768 steps are the most.
pub fn outlines(library: &Library) {
    for start in AXES.iter().flat_map(|&x| AXES.map(|y| (x, y))) {
        for chain in [
            &[][..],
            &[0],
            &[1],
            &[2],
            &[3],
            &[1, 0, 3],
            &[0, 2, 1],
            &[4],
        ] {
            outline_near(library, start, chain);
        }
    }
    let mut random = Random(11);
    let mut longest = 0;
    for n in [5, 64, 255, 256, 257, 2_047, 2_048, 2_049, MOST_STEPS] {
        for chain in [
            inputs::straight(n, 1),
            inputs::stairs(n),
            inputs::spiral(n),
            inputs::comb(n, 9),
            inputs::brush(n, 3),
            inputs::eights(n, 5),
            inputs::lattice(n, 17),
            inputs::wander(n, &mut random),
            inputs::hesitant(n, 0, 60, &mut random),
        ] {
            for turned in 0..4 {
                let chain: Vec<u8> = chain.iter().map(|step| (step + turned) % 4).collect();
                longest = longest.max(outline_near(library, inputs::start(&mut random), &chain));
            }
        }
    }
    assert_eq!(longest as usize, 2 * MOST_STEPS);
}

/// Every room of up to `longest` steps, and long ones that are convex or nearly so, from far starts and each from several of its
/// corners, both ways round and after each quarter turn.
pub fn convex_rooms(library: &Library, longest: usize) {
    let mut told = [0; 2];
    inputs::every_room(longest, &mut |room| {
        told[calls::convex(library, (16_384, -16_384), room)[2] as usize] += 1;
    });
    assert!(told.iter().all(|&count| count > 100));
    let mut random = Random(8);
    for n in [8, 24, 64, 254, 256, 258, 1_000, 2_048, 2_050, MOST_STEPS] {
        for width in [1, 2, n / 8, n / 5, n / 4] {
            let oval = inputs::oval(n, width.max(1));
            let sided = |room: &[u8]| calls::convex(library, (0, 0), room)[2] == 1;
            assert!(sided(&oval) || width < n / 8);
            convex_of(library, &oval, &mut random);
            for _ in 0..8 {
                convex_of(
                    library,
                    &inputs::dented(n, width.max(1), &mut random),
                    &mut random,
                );
            }
        }
        for room in [inputs::room(n, &mut random), inputs::closed_spiral(n)] {
            convex_of(library, &room, &mut random);
        }
    }
}

/// One room from several of its corners, backwards and turned.
fn convex_of(library: &Library, room: &[u8], random: &mut Random) {
    let mut chain = room.to_vec();
    for turn in 0..4 {
        chain.rotate_left(random.below(room.len()));
        calls::convex(library, inputs::start(random), &chain);
        chain.iter_mut().for_each(|step| *step = (*step + 1) % 4);
        if turn == 1 {
            chain.reverse();
            chain.iter_mut().for_each(|step| *step = (*step + 2) % 4);
        }
    }
    calls::convex(library, (0, 0), &chain[1..]);
}

/// Orthogonal hulls of every room of up to `longest` steps, in blocks of one panel and of more, from starts at every place in a
/// block; hulls that are known; long rooms in many grid sizes, of every size of the working store and one beyond; and each refusal
/// beside those that come after it.
pub fn orthogonal_hulls(library: &Library, longest: usize) {
    let mut notched = 0;
    inputs::every_room(longest, &mut |room| {
        let [number, _, steps, ..] = calls::orthogonal(library, (0, 0), room, 1, room.len());
        assert_eq!(number, 0);
        notched += usize::from((steps as usize) < room.len());
    });
    // At least the U of five panels in its four positions, from each of its 12 corners, both ways round.
    assert!(notched >= 96);
    inputs::every_room(longest.min(10), &mut |room| {
        for (x, y) in (-3..=3).flat_map(|x| (-3..=3).map(move |y| (x, y))) {
            calls::orthogonal(library, (x, y), room, 2, room.len());
            calls::orthogonal(library, (x, y), room, 3, room.len());
        }
    });
    known_hulls(library);
    refused_hulls(library);
    let mut random = Random(29);
    for n in [8, 20, 254, 256, 258, 2_046, 2_048, 2_050, MOST_STEPS] {
        for mut room in [
            inputs::room(n, &mut random),
            inputs::closed_spiral(n),
            inputs::closed_comb(n, 7),
            inputs::corridor(n, &mut random),
            inputs::tower(n),
            inputs::grown(n.min(2_050), &mut random),
        ] {
            for grid in [
                1,
                2,
                3,
                7,
                64,
                1 + random.below(MOST_GRID as usize) as u32,
                MOST_GRID,
            ] {
                let turns = random.below(room.len());
                room.rotate_left(turns);
                room.iter_mut().for_each(|step| *step = (*step + 1) % 4);
                let start = inputs::start(&mut random);
                orthogonal_near(library, start, &room, grid);
                again(library, start, &room, grid);
            }
        }
    }
}

/// The hull of the hull, in blocks of one, is the hull. It is a room, whose area is the number of the blocks, and its length is that
/// of its box.
fn again(library: &Library, start: (i32, i32), room: &[u8], grid: u32) {
    let (mut out, mut answer) = (vec![9; room.len()], [0; ORTHOGONAL_ANSWER_WORDS]);
    (library.orthogonal_hull)(start, room, grid, &mut out, &mut answer);
    let [number, _, steps, x, y, blocks] = answer;
    if number != 0 {
        return;
    }
    let hull = &out[..steps as usize];
    assert!(out[steps as usize..].iter().all(|&byte| byte == 9));
    let (mut at, mut area) = ((0_i64, 0_i64), 0);
    let (mut least, mut most) = (at, at);
    for &step in hull {
        let (east, north) = [(1, 0), (0, 1), (-1, 0), (0, -1)][usize::from(step)];
        area += at.0 * north;
        at = (at.0 + east, at.1 + north);
        least = (least.0.min(at.0), least.1.min(at.1));
        most = (most.0.max(at.0), most.1.max(at.1));
    }
    assert_eq!((at, area), ((0, 0), i64::from(blocks)));
    let around = 2 * (most.0 - least.0 + most.1 - least.1);
    assert_eq!(i64::from(steps), around);
    let corner = (x.cast_signed(), y.cast_signed());
    let far = |v: i32| v.abs() > MOST_START;
    let (mut twice, mut second) = (vec![9; hull.len()], [0; ORTHOGONAL_ANSWER_WORDS]);
    (library.orthogonal_hull)(corner, hull, 1, &mut twice, &mut second);
    if far(corner.0) || far(corner.1) {
        assert_eq!(second, [10, 0, 0, 0, 0, 0]);
    } else {
        assert_eq!((&second, &twice[..]), (&answer, hull));
    }
}

/// Hulls that are known: the U of five panels, a plus, stairs, a spiral, and one block round it all.
fn known_hulls(library: &Library) {
    let u = [0, 0, 0, 1, 1, 2, 3, 2, 1, 2, 3, 3];
    let plus = [0, 1, 0, 1, 2, 1, 2, 3, 2, 3, 0, 3];
    let stairs = [0, 1, 0, 1, 0, 1, 1, 2, 2, 2, 3, 3, 3, 3];
    let spiral = inputs::closed_spiral(40);
    let minus = |v: i32| v.cast_unsigned();
    for (start, room, grid, facts) in [
        ((-3, 5), &u[..], 1, [10, minus(-3), 5, 6]),
        ((-3, 5), &u, 2, [8, minus(-2), 2, 4]),
        ((-3, 5), &u, 3, [6, minus(-1), 1, 2]),
        ((-3, 5), &u, MOST_GRID, [4, minus(-1), 0, 1]),
        ((1, 0), &plus, 1, [12, 0, 1, 5]),
        ((1, 0), &plus, 2, [8, 0, 0, 3]),
        ((0, 0), &stairs, 1, [14, 0, 0, 9]),
        ((0, 0), &spiral, 1, [24, minus(-2), minus(-2), 27]),
        ((0, 0), &spiral, 4, [10, minus(-1), minus(-1), 5]),
    ] {
        let [number, place, answered @ ..] = orthogonal_near(library, start, room, grid);
        assert_eq!((number, place, answered), (0, 0, facts));
    }
}

/// Every refusal beside every grid size, with buffers of every length.
fn refused_hulls(library: &Library) {
    let faults: Vec<((i32, i32), Vec<u8>)> = vec![
        ((0, 0), vec![0; MOST_INPUT + 1]),
        ((MOST_START + 1, 0), vec![0, 1, 2, 9]),
        ((0, i32::MIN), vec![4]),
        ((0, 0), vec![0, 1, 4, 9]),
        (
            (0, 0),
            [inputs::straight(MOST_STEPS + 1, 0), vec![9]].concat(),
        ),
        ((0, 0), vec![0, 2]),
        ((0, 0), vec![]),
        ((1, -1), vec![0, 1, 2, 3]),
        ((0, 0), vec![0, 0, 1, 2, 1, 2, 3, 3]),
    ];
    for (start, chain) in &faults {
        for grid in GRIDS {
            for out in 0..10 {
                calls::orthogonal(library, *start, chain, grid, out);
            }
        }
    }
}

/// Every pair of rooms of up to `longest` steps at every distance at which they can touch, pairs of long ones, and walks that are not rooms in every
/// order.
pub fn overlays(library: &Library, longest: usize) {
    let mut small = Vec::new();
    inputs::every_room(longest, &mut |room| small.push(room.to_vec()));
    let reach = longest as i32 / 2 + 1;
    for (one, other) in small
        .iter()
        .flat_map(|one| small.iter().map(move |other| (one, other)))
    {
        for start in (-reach..=reach).flat_map(|x| (-reach..=reach).map(move |y| (x, y))) {
            calls::overlay(library, ((0, 0), one), (start, other), [longest; 3]);
        }
    }
    laid_over(library);
    refused_over(library);
    let mut random = Random(13);
    for n in [8, 20, 254, 256, 258, 2_046, 2_048, 2_050, MOST_STEPS] {
        let rooms = |n: usize, random: &mut Random| {
            [
                inputs::room(n, random),
                inputs::closed_spiral(n),
                inputs::closed_comb(n, 7),
                inputs::tower(n),
            ]
        };
        for one in rooms(n, &mut random) {
            for other in [rooms(n, &mut random), rooms(12, &mut random)].concat() {
                let start = inputs::start(&mut random);
                let near =
                    |v: i32, random: &mut Random| v.saturating_add(random.below(9) as i32 - 4);
                let beside = (near(start.0, &mut random), near(start.1, &mut random));
                overlay_near(library, (start, &one), (beside, &other));
                overlay_near(library, (beside, &other), (start, &one));
            }
        }
    }
}

/// Pairs whose parts are known.
fn laid_over(library: &Library) {
    let parts = |one: Room, other: Room| {
        let [number, place, facts @ ..] = overlay_near(library, one, other);
        assert_eq!((number, place), (0, 0));
        facts
    };
    let (panel, u) = (&[0, 1, 2, 3][..], &[0, 0, 0, 1, 1, 2, 3, 2, 1, 2, 3, 3][..]);
    for far in [-MOST_START, -1, 0, 3, MOST_START - 1] {
        let (here, mouth) = ((far, far), (far + 1, far + 1));
        assert_eq!(parts((here, u), (mouth, panel)), [5, 1, 0, 3, 1, 0]);
        assert_eq!(parts((mouth, panel), (here, u)), [1, 5, 0, 1, 3, 0]);
        assert_eq!(parts((here, u), (here, panel)), [4, 0, 1, 3, 0, 1]);
        assert_eq!(parts((here, u), (here, u)), [0, 0, 5, 0, 0, 3]);
        assert_eq!(
            parts((here, panel), ((far + 1, far), panel)),
            [1, 1, 0, 1, 1, 0]
        );
        assert_eq!(
            parts((here, panel), ((far, far + 1), panel)),
            [1, 1, 0, 1, 1, 0]
        );
    }
    for n in [64, 1_024, MOST_STEPS] {
        let comb = inputs::closed_comb(n, 7);
        let count = n as u32 / 2 - 1;
        let [_, _, both, _, _, _] = parts(((5, 5), &comb), ((5, 5), &comb));
        assert_eq!(both, count);
        for aside in [1, 2, 9] {
            let [first, second, both, ..] = parts(((0, 0), &comb), ((aside, 1), &comb));
            assert_eq!([first + both, second + both], [count; 2]);
        }
        let apart = parts(((-MOST_START, 0), &comb), ((MOST_START, 0), &comb));
        assert_eq!(apart[..3], [count, count, 0]);
    }
}

/// Every refusal of either room beside every refusal of the other, with buffers of every length.
fn refused_over(library: &Library) {
    let (panel, l) = (vec![0, 1, 2, 3], vec![0, 0, 1, 2, 1, 2, 3, 3]);
    let long = [inputs::straight(MOST_STEPS + 1, 0), vec![9]].concat();
    let faults: Vec<((i32, i32), Vec<u8>)> = vec![
        ((0, 0), vec![0; MOST_INPUT + 1]),
        ((MOST_START + 1, 0), vec![0, 1, 2, 9]),
        ((0, i32::MIN), vec![4]),
        ((0, 0), vec![0, 1, 4, 9]),
        ((0, 0), long),
        ((0, 0), vec![0, 2]),
        ((0, 0), vec![]),
        ((1, -1), panel),
        ((0, 0), l),
    ];
    for (one, other) in faults
        .iter()
        .flat_map(|one| faults.iter().map(move |other| (one, other)))
    {
        let (one, other) = ((one.0, &one.1[..]), (other.0, &other.1[..]));
        for lengths in 0..7 * 7 * 7 {
            let out = [lengths % 7, lengths / 7 % 7, lengths / 49];
            calls::overlay(library, one, other, out);
        }
    }
}

/// The bytes of two parties, and one that is refused.
const BYTES: [u8; 11] = [
    0x00, 0x01, 0x02, 0x03, 0x04, 0x10, 0x11, 0x12, 0x13, 0x14, 0x25,
];

/// Every string of up to `longest` of these bytes, from equal starts and from two that are neighbours at a border of the tree, in right and slightly
/// wrong tables.
pub fn short_pairs(library: &Library, longest: u32) {
    for digits in (0..=longest).flat_map(|length| strings(length, BYTES.len() as u32)) {
        let ops: Vec<u8> = digits.iter().map(|&i| BYTES[usize::from(i)]).collect();
        for starts in [[(0, 0), (0, 0)], [(-1, 1), (0, 2)]] {
            pair_near(library, starts, &ops);
        }
        let words = PAIR_RECORD_WORDS * inputs::most_pair_nodes([(0, 0); 2], &ops);
        walk_two(library, [(0, 0); 2], &ops, words - 1);
        walk_two(library, [(0, 0); 2], &ops, words + 1);
    }
}

/// Every byte at each place of short strings, and every length of each buffer up to beyond the right one, together.
pub fn pair_bytes(library: &Library) {
    let firms = [0x00, 0x12, 0x00, 0x12, 0x11, 0x14, 0x01, 0x13, 0x02, 0x10];
    for ops in [
        &[0x00][..],
        &[0x14],
        &[0x00, 0x10],
        &[0x10, 0x04, 0x14],
        &firms,
    ] {
        let mut ops = ops.to_vec();
        for place in 0..ops.len() {
            let kept = ops[place];
            for byte in 0..=u8::MAX {
                ops[place] = byte;
                walk_two(library, [(0, 0), (3, 1)], &ops, PAIR_RECORD_WORDS * 9);
            }
            ops[place] = kept;
        }
    }
    for ops in [&[][..], &[0x00], &[0x14], &[0x25], &[0x10, 0x14, 0x00]] {
        for table in 0..=PAIR_RECORD_WORDS * 3 + 1 {
            for marks in 0..=MARK_WORDS * ops.len() + 3 {
                for lengths in 0..(ops.len() + 2).pow(2) {
                    let chains = [lengths % (ops.len() + 2), lengths / (ops.len() + 2)];
                    calls::walk_two(library, [(0, 0); 2], ops, table, marks, chains);
                }
            }
        }
    }
}

/// The largest table and one beyond, the longest input and one beyond, the longest walks and one step beyond for either party; each with a fault of
/// the other kinds at another place.
pub fn pair_limits(library: &Library) {
    let most = PAIR_RECORD_WORDS * MOST_PAIR_RECORDS;
    for words in [most - 1, most, most + 1, most + PAIR_RECORD_WORDS] {
        walk_two(library, [(0, 0); 2], &[0x00, 0x10, 0x01, 0x11, 0x14], words);
    }
    for (first, second) in [
        (MOST_STEPS, MOST_STEPS),
        (MOST_STEPS, MOST_STEPS + 1),
        (MOST_STEPS + 1, MOST_STEPS - 1),
        (MOST_STEPS - 1, MOST_STEPS + 1),
        (MOST_INPUT, 0),
        (1, MOST_INPUT),
    ] {
        for way in [0, 3] {
            let mut ops = [vec![way; first], vec![16 + (way + 1) % 4; second]].concat();
            pair_limits_of(library, &ops);
            for (place, byte) in [
                (MOST_STEPS, 0x14),
                (MOST_STEPS, 0x04),
                (MOST_STEPS, 0x05),
                (ops.len() - 1, 0x20),
                (ops.len() - 1, 0x04),
            ] {
                let kept = std::mem::replace(&mut ops[place], byte);
                pair_limits_of(library, &ops);
                ops[place] = kept;
            }
        }
    }
    let mut random = Random(17);
    let halves = [(); 2].map(|()| inputs::withdrawn(MOST_STEPS, &mut random));
    pair_limits_of(
        library,
        &inputs::mixed(&halves[0], &halves[1], 9, &mut random),
    );
}

/// One input near a limit, in a table that is large enough, in one that is not, and in wrong buffers.
fn pair_limits_of(library: &Library, ops: &[u8]) {
    let (starts, n) = ([(0, 0); 2], ops.len());
    let words = PAIR_RECORD_WORDS * inputs::most_pair_nodes(starts, ops);
    walk_two(library, starts, ops, words);
    walk_two(library, starts, ops, words - PAIR_RECORD_WORDS);
    calls::walk_two(library, starts, ops, words, MARK_WORDS * n, [n, n - 1]);
    calls::walk_two(library, starts, ops, words, MARK_WORDS * n, [n + 1, n]);
    calls::walk_two(library, starts, ops, words, MARK_WORDS * n - 1, [n; 2]);
}

/// Starts at the ends of the range and beyond, equal, neighbours, and far apart, each with short walks, in every table up to one that is large enough.
pub fn pair_starts(library: &Library) {
    let walks: [&[u8]; 4] = [
        &[],
        &[0x00, 0x12],
        &[0x13, 0x02, 0x14, 0x01, 0x04, 0x04],
        &[0x00, 0x10, 0x01, 0x11, 0x02, 0x14, 0x03, 0x14, 0x04],
    ];
    for one in AXES.iter().flat_map(|&x| AXES.map(|y| (x, y))) {
        let beside = (one.0.saturating_add(1), one.1);
        for other in [one, beside, (one.1, one.0), (0, 0), (-16_384, 16_384)] {
            for ops in walks {
                pair_near(library, [one, other], ops);
                pair_near(library, [other, one], ops);
            }
        }
    }
    for starts in [[(16_383, 16_383), (16_384, -16_384)], [(-5, 9), (-5, 9)]] {
        for records in 1..=60 {
            for ops in walks {
                walk_two(library, starts, ops, PAIR_RECORD_WORDS * records);
            }
        }
    }
}

/// Rooms that share a lobby, walked by two parties in many orders, with steps taken back by both; each in every table up to one that is large enough.
pub fn lobbies(library: &Library) {
    let mut random = Random(19);
    let rooms: [&[u8]; 4] = [
        &[0, 0, 1, 2, 2, 3],
        &[2, 2, 3, 0, 0, 1],
        &[1, 0, 3, 2],
        &[0, 0, 0, 1, 1, 2, 3, 2, 1, 2, 3, 3],
    ];
    for (one, other) in rooms
        .iter()
        .flat_map(|&one| rooms.map(|other| (one, other)))
    {
        for start in [(0, 0), (3, 1), (-2, -1), (7, 8), (16_383, -16_384)] {
            for _ in 0..12 {
                let [first, second] = [one, other].map(|room| hesitating(room, &mut random));
                let most = 1 + random.below(4);
                let ops = inputs::mixed(&first, &second, most, &mut random);
                let near = |v: i32, random: &mut Random| v + random.below(5) as i32 - 2;
                let beside = (near(start.0, &mut random), near(start.1, &mut random));
                let right = inputs::most_pair_nodes([start, beside], &ops);
                for records in 1..=right + 1 {
                    walk_two(library, [start, beside], &ops, PAIR_RECORD_WORDS * records);
                }
            }
        }
    }
    // Both walk the same way, one after the other and back: each node is found, left to the other, and freed.
    for n in [30, 1_000] {
        let (out, back) = (inputs::spiral(n), vec![4; n]);
        let there = [out, back].concat();
        for most in [1, 3, n, usize::MAX] {
            let ops = inputs::mixed(&there, &there, most, &mut random);
            pair_near(library, [(5, -3), (5, -3)], &ops);
        }
        pair_near(library, [(0, 0), (2, 1)], &inputs::refilled(n));
    }
}

/// The steps of a room with slips, which are taken back.
fn hesitating(room: &[u8], random: &mut Random) -> Vec<u8> {
    let mut ops = Vec::new();
    for &step in room {
        if random.once_in(3) {
            let slip = 1 + random.below(4);
            ops.extend(inputs::wander(slip, random));
            ops.extend(vec![4; slip]);
        }
        ops.push(step);
    }
    ops
}

/// Polygons that are read, in both byte orders: rooms that were written, rings with every byte in each place, of every length, with every
/// special float in each coordinate; long edges, rings of as many steps as may be and one panel more, files that count far more points than
/// they have.
pub fn files(library: &Library) {
    let mut random = Random(11);
    for little in [true, false] {
        let ring = |start, chain: &[u8], between, random: &mut Random| {
            inputs::polygon(&inputs::points(start, chain, between, random), little)
        };
        let room = ring((3, -2), &[0, 1, 2, 3], 1, &mut random);
        for place in 0..room.len() {
            let mut damaged = room.clone();
            for byte in 0..=u8::MAX {
                damaged[place] = byte;
                calls::chain(library, &damaged, 4);
            }
            calls::chain(library, &room[..place], 4);
            calls::chain(library, &[&room[..], &room[..place]].concat(), 4);
        }
        for (start, chain) in [
            ((0, 0), &[0, 1, 2, 3][..]),
            ((MOST_START, -MOST_START), &[0, 0, 1, 2, 2, 3]),
            ((-MOST_START, MOST_START), &[2, 1, 0, 3]),
        ] {
            let points = inputs::points(start, chain, usize::MAX, &mut random);
            for place in 0..points.len() {
                for float in inputs::special() {
                    for (x, y) in [
                        (float, points[place].1),
                        (points[place].0, float),
                        (float, float),
                    ] {
                        let mut tried = points.clone();
                        tried[place] = (x, y);
                        chain_near(library, &inputs::polygon(&tried, little));
                    }
                }
            }
        }
        for n in [
            4_094,
            MOST_STEPS / 2 - 1,
            MOST_STEPS / 2,
            MOST_STEPS / 2 + 1,
        ] {
            for way in 0..4 {
                let there_and_back = [vec![way; n], vec![(way + 2) % 4; n]].concat();
                for between in [1, 2, 1_000, usize::MAX] {
                    for start in [(0, 0), (MOST_START, MOST_START), (-MOST_START, -MOST_START)] {
                        chain_near(library, &ring(start, &there_and_back, between, &mut random));
                    }
                }
            }
        }
        for edge in [16_383, 16_384, 16_385, 32_768] {
            let far = 600.0 * f64::from(edge);
            let slot = [
                (0.0, 0.0),
                (far, 0.0),
                (far, 600.0),
                (0.0, 600.0),
                (0.0, 0.0),
            ];
            chain_near(library, &inputs::polygon(&slot, little));
            chain_near(library, &inputs::polygon(&slot[..4], little));
            chain_near(
                library,
                &inputs::polygon(&[slot[0], slot[1], slot[1], slot[0]], little),
            );
        }
        for count in [
            5 + 0x1000_0000,
            5 + 0x2000_0000,
            u32::MAX,
            268_435_455,
            0,
            4,
            6,
        ] {
            let mut counted = room.clone();
            let bytes = if little {
                count.to_le_bytes()
            } else {
                count.to_be_bytes()
            };
            counted[9..13].copy_from_slice(&bytes);
            calls::chain(library, &counted, 4);
        }
        for n in [8, 64, 1_024, MOST_STEPS] {
            for chain in [
                inputs::room(n, &mut random),
                inputs::closed_spiral(n),
                inputs::closed_comb(n, 7),
            ] {
                for between in [1, 3, usize::MAX] {
                    chain_near(
                        library,
                        &ring(inputs::start(&mut random), &chain, between, &mut random),
                    );
                }
            }
        }
    }
}

/// Every header byte by byte, every count with fitting and unfitting digits, every byte in a short frame.
pub fn lines(library: &Library) {
    let line = |line: &[u8]| calls::line(library, line, LINE_BYTES);
    for count in 0..=MOST_LINE_DIGITS + 2 {
        for kind in 0..3 {
            let mut frame = inputs::frame(kind, &inputs::spiral(count));
            line(&frame);
            frame.push(b'0');
            line(&frame);
        }
    }
    for frame in [&b"0000040123"[..], b"0100040111", b"000000"] {
        for place in 0..frame.len() {
            let mut damaged = frame.to_vec();
            for byte in 0..=u8::MAX {
                damaged[place] = byte;
                line(&damaged);
            }
            line(&frame[..place]);
        }
    }
}

/// The coordinates at which a start is tried: both ends of the range and one past each, the least and the greatest number, the
/// borders of large parts of the tree, and small ones.
const AXES: [i32; 15] = [
    i32::MIN,
    -16_385,
    -16_384,
    -16_383,
    -8_192,
    -2,
    -1,
    0,
    1,
    3,
    8_191,
    16_383,
    16_384,
    16_385,
    i32::MAX,
];

/// Every pair of such coordinates as a start, with every walk of up to `longest` operations, in right and slightly wrong tables
/// and in every table up to one that is large enough for the start; four corners around (16383, 16383) need 59 nodes.
pub fn starts(library: &Library, longest: u32) {
    for start in AXES.iter().flat_map(|&x| AXES.map(|y| (x, y))) {
        for ops in (0..=longest).flat_map(|length| strings(length, 6)) {
            walk_near(library, start, &ops);
            hull_near(library, start, &ops);
            outline_near(library, start, &ops);
        }
        for records in 1..=18 {
            walk(library, start, &[], RECORD_WORDS * records);
            walk(library, start, &[2, 4], RECORD_WORDS * records);
        }
        calls::walk(library, start, &[0, 5], RECORD_WORDS, 6, 2);
        calls::walk(library, start, &[0, 1], RECORD_WORDS, 6, 1);
        calls::walk(library, start, &[0, 1], RECORD_WORDS - 1, 6, 2);
    }
    for way in 0..4 {
        let ops = inputs::straight(MOST_STEPS, way);
        for start in [
            (16_384, 16_384),
            (16_384, -16_384),
            (-16_384, 16_384),
            (-16_384, -16_384),
        ] {
            walk_near(library, start, &ops);
            hull_near(library, start, &ops);
        }
    }
}

/// A whole program on random inputs: `run` gives its output, and `plain` what it has to be.
pub fn program(
    run: impl Fn(&[u8]) -> Vec<u8>,
    plain: fn(&[u8]) -> Vec<u8>,
    inputs: usize,
    random: &mut Random,
) {
    assert_eq!(run(b""), plain(b""));
    for _ in 0..inputs {
        let count = random.length(400);
        let input = inputs::lines(count, random);
        assert!(
            run(&input) == plain(&input),
            "the program, on {} bytes",
            input.len()
        );
    }
}

/// Random calls of all kinds.
pub fn random_calls(library: &Library, random: &mut Random) {
    random_walk(library, MOST_INPUT + 4, random);
    for _ in 0..8 {
        random_walk(library, 1_024, random);
        random_chain(library, random);
        calls::line(library, &inputs::line(random), LINE_BYTES + random.below(2));
        chain_near(library, &inputs::file(400, random));
    }
    chain_near(library, &inputs::file(MOST_STEPS, random));
    if random.once_in(4) {
        random_pair(library, MOST_INPUT + 4, random);
    }
    for _ in 0..8 {
        random_pair(library, 1_024, random);
    }
}

/// Two parties with up to `most` operations, in tables that are large enough and in tables that are not.
fn random_pair(library: &Library, most: usize, random: &mut Random) {
    let (starts, ops) = inputs::pair(most, random);
    pair_near(library, starts, &ops);
    let records = 1 + random.below(inputs::most_pair_nodes(starts, &ops));
    walk_two(library, starts, &ops, PAIR_RECORD_WORDS * records);
}

/// A walk of up to `most` operations, in tables that are large enough and in tables that are not.
fn random_walk(library: &Library, most: usize, random: &mut Random) {
    let (start, ops) = (inputs::start(random), inputs::walk(most, random));
    walk_near(library, start, &ops);
    let words = RECORD_WORDS * (1 + random.below(inputs::most_nodes(start, &ops)));
    walk(library, start, &ops, words);
}

/// A chain for the hull, the outline and both conversions, half the time a good one.
fn random_chain(library: &Library, random: &mut Random) {
    let mut chain = inputs::walk(MOST_INPUT, random);
    if random.once_in(2) {
        chain.retain(|&step| step < 4);
        chain.truncate(MOST_STEPS);
    }
    hull_near(library, inputs::start(random), &chain);
    outline_near(library, inputs::start(random), &chain);
    turns_near(library, &chain);
    room_near(library, inputs::start(random), &chain);
    let (start, other) = (inputs::start(random), inputs::walk(400, random));
    overlay_near(library, (start, &chain), (start, &other));
    overlay_near(library, (start, &other), (start, &chain));
}
