//! The calls that race, each on several inputs one after the other. The buffers are ready; what a call does to them, the
//! clearing of the table included, is timed.

use std::collections::HashMap;
use std::fmt::Debug;
use std::hint::black_box;

use answer::{
    LINE_BYTES, MARK_WORDS, MOST_STEPS, PAIR_RECORD_WORDS, PairFacts, RECORD_WORDS, Refusal,
};
use compare::inputs::{most_nodes, most_pair_nodes};
use compare::{Room, Starts};

use crate::race::Call;

/// Where the walks start.
const START: (i32, i32) = (0, 0);

/// Each walk in the smallest table that is large enough.
pub fn walk<'a, T, E: Debug>(
    walk: impl Fn((i32, i32), &[u8], &mut [u32], &mut [u32], &mut [u8]) -> Result<T, E> + 'static,
    inputs: &'a [Vec<u8>],
) -> Call<'a> {
    let walks = inputs.iter().map(|ops| (START, ops.clone())).collect();
    walk_from(walk, walks)
}

/// The same from a start of its own each.
fn walk_from<'a, T, E: Debug>(
    walk: impl Fn((i32, i32), &[u8], &mut [u32], &mut [u32], &mut [u8]) -> Result<T, E> + 'static,
    walks: Vec<((i32, i32), Vec<u8>)>,
) -> Call<'a> {
    let lent = |(start, ops): &((i32, i32), Vec<u8>)| {
        let table = vec![0; RECORD_WORDS * most_nodes(*start, ops)];
        (table, vec![0; MARK_WORDS * ops.len()], vec![0; ops.len()])
    };
    let mut buffers: Vec<_> = walks.iter().map(lent).collect();
    Box::new(move || {
        for ((start, ops), (table, marks, chain)) in walks.iter().zip(&mut buffers) {
            let answer = walk(*start, black_box(ops), table, marks, chain);
            black_box(answer.expect("the buffers are large enough"));
        }
    })
}

/// Where two parties start.
const STARTS: Starts = [START, (2, 1)];

/// Two parties in the smallest table that is large enough, each input with the bytes of both.
pub fn walk_two(
    walk_two: impl Fn(
        Starts,
        &[u8],
        &mut [u32],
        &mut [u32],
        [&mut [u8]; 2],
    ) -> Result<PairFacts, Refusal>
    + 'static,
    inputs: &[Vec<u8>],
) -> Call<'_> {
    let lent = |ops: &Vec<u8>| {
        let table = vec![0; PAIR_RECORD_WORDS * most_pair_nodes(STARTS, ops)];
        let chain = vec![0; ops.len()];
        (
            table,
            vec![0; MARK_WORDS * ops.len()],
            [chain.clone(), chain],
        )
    };
    let mut buffers: Vec<_> = inputs.iter().map(lent).collect();
    Box::new(move || {
        for (ops, (table, marks, [first, second])) in inputs.iter().zip(&mut buffers) {
            let answer = walk_two(STARTS, black_box(ops), table, marks, [first, second]);
            black_box(answer.expect("the buffers are large enough"));
        }
    })
}

/// Each of the two parties alone, one after the other, each in a table of its own.
pub fn walk_alone<'a, T, E: Debug>(
    walk: impl Fn((i32, i32), &[u8], &mut [u32], &mut [u32], &mut [u8]) -> Result<T, E> + 'static,
    inputs: &'a [Vec<u8>],
) -> Call<'a> {
    let own = |ops: &'a Vec<u8>| {
        [0, 1].map(|q| {
            let own = ops.iter().filter(|&op| op / 16 == q);
            (STARTS[usize::from(q)], own.map(|op| op % 16).collect())
        })
    };
    walk_from(walk, inputs.iter().flat_map(own).collect())
}

/// The visits of each corner, in a map of the standard library, without table, marks or verdict.
pub fn count_visits(inputs: &[Vec<u8>]) -> Call<'_> {
    Box::new(move || {
        for ops in inputs {
            black_box(visits(black_box(ops)));
        }
    })
}

fn visits(ops: &[u8]) -> HashMap<(i32, i32), u32> {
    let mut visits = HashMap::with_capacity(ops.len() + 1);
    let mut steps = Vec::with_capacity(ops.len());
    let mut at = (0, 0);
    visits.insert(at, 1);
    for &op in ops {
        if op < 4 {
            steps.push(op);
            at = stepped(at, op);
            *visits.entry(at).or_default() += 1;
        } else {
            *visits.get_mut(&at).expect("it was visited") -= 1;
            let step: u8 = steps.pop().expect("it was made");
            at = stepped(at, (step + 2) % 4);
        }
    }
    visits
}

fn stepped((x, y): (i32, i32), step: u8) -> (i32, i32) {
    let (east, north) = [(1, 0), (0, 1), (-1, 0), (0, -1)][usize::from(step)];
    (x + east, y + north)
}

/// Each hull, in a buffer that is always large enough.
pub fn hull<'a, T, E: Debug>(
    hull: impl Fn((i32, i32), &[u8], &mut [i32]) -> Result<T, E> + 'static,
    inputs: &'a [Vec<u8>],
) -> Call<'a> {
    let mut out = vec![0; 2 * inputs[0].len() + 2];
    Box::new(move || {
        for chain in inputs {
            let answer = hull(START, black_box(chain), &mut out);
            black_box(answer.expect("the buffers are large enough"));
        }
    })
}

/// Each outline, in a buffer that is always large enough.
pub fn outline<'a, T, E: Debug>(
    outline: impl Fn((i32, i32), &[u8], &mut [u8]) -> Result<T, E> + 'static,
    inputs: &'a [Vec<u8>],
) -> Call<'a> {
    let mut out = vec![0; 2 * inputs[0].len()];
    Box::new(move || {
        for chain in inputs {
            let answer = outline(START, black_box(chain), &mut out);
            black_box(answer.expect("the buffers are large enough"));
        }
    })
}

/// Each room as a polygon, in a buffer that is always large enough.
pub fn polygon<'a, T, E: Debug>(
    polygon: impl Fn((i32, i32), &[u8], &mut [u8]) -> Result<T, E> + 'static,
    inputs: &'a [Vec<u8>],
) -> Call<'a> {
    let mut out = vec![0; 16 * inputs[0].len() + 29];
    Box::new(move || {
        for chain in inputs {
            let answer = polygon((-7, 5), black_box(chain), &mut out);
            black_box(answer.expect("it is a room"));
        }
    })
}

/// Each room by rows, in a buffer that is always large enough.
pub fn rows<'a, T, E: Debug>(
    rows: impl Fn((i32, i32), &[u8], &mut [i32]) -> Result<T, E> + 'static,
    inputs: &'a [Vec<u8>],
) -> Call<'a> {
    let mut out = vec![0; 3 * inputs[0].len()];
    Box::new(move || {
        for chain in inputs {
            let answer = rows((-7, 5), black_box(chain), &mut out);
            black_box(answer.expect("it is a room"));
        }
    })
}

/// The same from sorted keys, after the same judgement in plain Rust.
pub fn sorted_rows(inputs: &[Vec<u8>]) -> Call<'_> {
    let mut out = vec![0; 3 * inputs[0].len()];
    Box::new(move || {
        for chain in inputs {
            twin::judge_room((-7, 5), black_box(chain)).expect("it is a room");
            black_box(sort_edges((-7, 5), chain, &mut out));
        }
    })
}

fn sort_edges(start: (i32, i32), chain: &[u8], out: &mut [i32]) -> usize {
    let mut edges = Vec::with_capacity(chain.len());
    let mut at = start;
    for &step in chain {
        let next = stepped(at, step);
        if step % 2 == 1 {
            edges.push((at.1.min(next.1), at.0));
        }
        at = next;
    }
    edges.sort_unstable();
    for (two, span) in edges.chunks_exact(2).zip(out.chunks_exact_mut(3)) {
        span.copy_from_slice(&[two[0].0, two[0].1, two[1].1 - 1]);
    }
    edges.len() / 2
}

/// Each room over itself, moved aside a little, in buffers that are always large enough.
pub fn overlay<'a, T, E: Debug>(
    overlay: impl Fn(Room, Room, [&mut [i32]; 3]) -> Result<T, E> + 'static,
    inputs: &'a [Vec<u8>],
) -> Call<'a> {
    let [mut first, mut second, mut both] = [(); 3].map(|()| vec![0; 3 * inputs[0].len()]);
    Box::new(move || {
        for chain in inputs {
            let chain = black_box(&chain[..]);
            let out = [&mut first[..], &mut second, &mut both];
            let answer = overlay(((-7, 5), chain), ((-6, 7), chain), out);
            black_box(answer.expect("they are rooms"));
        }
    })
}

/// Whether each room is convex.
pub fn convex<'a, T, E: Debug>(
    convex: impl Fn((i32, i32), &[u8]) -> Result<T, E> + 'static,
    inputs: &'a [Vec<u8>],
) -> Call<'a> {
    Box::new(move || {
        for chain in inputs {
            black_box(convex((-7, 5), black_box(chain)).expect("it is a room"));
        }
    })
}

/// The orthogonal hull of each room in blocks of this size, in a buffer as long as the chain, which is always large enough.
pub fn orthogonal<'a, T, E: Debug>(
    hull: impl Fn((i32, i32), &[u8], u32, &mut [u8]) -> Result<T, E> + 'static,
    inputs: &'a [Vec<u8>],
    grid: u32,
) -> Call<'a> {
    let mut out = vec![0; inputs[0].len()];
    Box::new(move || {
        for chain in inputs {
            let answer = hull((-7, 5), black_box(chain), black_box(grid), &mut out);
            black_box(answer.expect("it is a room"));
        }
    })
}

/// Each polygon as a start and a chain.
pub fn chain<'a, T, E: Debug>(
    chain: impl Fn(&[u8], &mut [u8]) -> Result<T, E> + 'static,
    files: &'a [Vec<u8>],
) -> Call<'a> {
    let mut out = vec![0; MOST_STEPS];
    Box::new(move || {
        for file in files {
            let answer = chain(black_box(file), &mut out);
            black_box(answer.expect("it is a ring"));
        }
    })
}

/// Each answer to a line.
pub fn line(line: impl Fn(&[u8], &mut [u8]) -> usize + 'static, lines: &[Vec<u8>]) -> Call<'_> {
    let mut out = vec![0; LINE_BYTES];
    Box::new(move || {
        for frame in lines {
            assert!(black_box(line(black_box(frame), &mut out)) > 0);
        }
    })
}

/// Each conversion between steps and turns.
pub fn convert(
    convert: impl Fn(&[u8], &mut [u8]) -> Result<(), Refusal> + 'static,
    inputs: &[Vec<u8>],
) -> Call<'_> {
    let mut out = vec![0; inputs[0].len()];
    Box::new(move || {
        for digits in inputs {
            convert(black_box(digits), &mut out).expect("the digits are good");
            black_box(&out);
        }
    })
}
