//! The table of a walk, made from its surviving steps alone.

use std::collections::HashMap;

use answer::RECORD_WORDS;
use answer::word::{CHILD, EDGE, FIRST, LINK_STEP, NEED, NEIGHBOUR, PARENT, VISITS};

use crate::grid::{Corner, corners, lineage, parent};

pub type Record = [u32; RECORD_WORDS];

/// The word of the parent's record that holds the ref of this child.
pub fn child_word((x, y): Corner) -> usize {
    let index = |v: i32| if v == -1 { -1 } else { v.abs() % 2 };
    CHILD + (3 * (index(x) + 1) + (index(y) + 1)) as usize
}

/// The direction from one corner to a neighbour.
pub fn direction((ax, ay): Corner, (bx, by): Corner) -> usize {
    match (bx - ax, by - ay) {
        (1, 0) => 0,
        (0, 1) => 1,
        (-1, 0) => 2,
        (0, -1) => 3,
        _ => unreachable!("the parents of neighbours are neighbours"),
    }
}

/// The records of the nodes in use.
pub fn records(start: Corner, steps: &[u8]) -> Vec<Record> {
    let corners = corners(start, steps);
    let mut records = Vec::new();
    let numbers = numbers(&corners, &mut records);
    for (&node, &number) in &numbers {
        if let Some(up) = parent(node) {
            let up = numbers[&up];
            records[number][PARENT] = up as u32 + 1;
            records[up][child_word(node)] = number as u32 + 1;
        }
    }
    for ((a, b), step) in links(&corners) {
        let (number, way) = (numbers[&a], direction(a, b));
        records[number][NEIGHBOUR + way] = numbers[&b] as u32 + 1;
        records[number][LINK_STEP + way] = step;
    }
    for ends in corners.windows(2) {
        records[numbers[&ends[0]]][EDGE + direction(ends[0], ends[1])] += 1;
        records[numbers[&ends[1]]][EDGE + direction(ends[1], ends[0])] += 1;
    }
    for (k, corner) in corners.iter().enumerate() {
        let record = &mut records[numbers[corner]];
        record[VISITS] += 1;
        if record[FIRST] == 0 {
            record[FIRST] = k as u32 + 1;
        }
    }
    records
}

/// The number of each node: in the order of the step that first needs it, and within one step nearer the root first. Each
/// gets a record that holds that step.
fn numbers(corners: &[Corner], records: &mut Vec<Record>) -> HashMap<Corner, usize> {
    let mut numbers = HashMap::new();
    for (step, &corner) in corners.iter().enumerate() {
        let mut line: Vec<Corner> = lineage(corner).collect();
        line.reverse();
        for node in line {
            numbers.entry(node).or_insert_with(|| {
                let mut record = [0; RECORD_WORDS];
                record[NEED] = step as u32;
                records.push(record);
                records.len() - 1
            });
        }
    }
    numbers
}

/// The least step that links each pair, at any level, both ways.
fn links(corners: &[Corner]) -> HashMap<(Corner, Corner), u32> {
    let mut links = HashMap::new();
    for (step, ends) in (1..).zip(corners.windows(2)) {
        for (a, b) in lineage(ends[0]).zip(lineage(ends[1])) {
            if a != b {
                links.entry((a, b)).or_insert(step);
                links.entry((b, a)).or_insert(step);
            }
        }
    }
    links
}
