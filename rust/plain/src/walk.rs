//! The whole call of the walk.

use std::collections::HashMap;

use answer::{
    Facts, MARK_WORDS, MOST_INPUT, MOST_RECORDS, MOST_STEPS, PartyFacts, RECORD_WORDS, Refusal,
    Verdict,
};

use crate::grid::{Corner, corners, judge_start, lineage, stepped};
use crate::journal::Journal;
use crate::record::records;

/// Judges the walk of `ops` from `start` and fills the three buffers.
pub fn walk(
    start: Corner,
    ops: &[u8],
    table: &mut [u32],
    marks: &mut [u32],
    chain: &mut [u8],
) -> Result<Facts, Refusal> {
    let sizes = (RECORD_WORDS, MOST_RECORDS);
    judge_sizes(ops.len(), table.len(), sizes, marks.len(), &[chain.len()])?;
    judge_start(start)?;
    judge_operations(ops)?;
    let (steps, moments) = run(start, ops);
    let most_nodes = (table.len() / RECORD_WORDS) as u32;
    table.fill(0);
    marks.fill(0);
    chain.fill(0);
    no_room(most_nodes, lineage(start).count() as u32, &moments)?;
    let records = records(start, &steps);
    table[..RECORD_WORDS * records.len()].copy_from_slice(records.as_flattened());
    marks.copy_from_slice(moments.as_flattened());
    chain[..steps.len()].copy_from_slice(&steps);
    Ok(facts(start, &steps).alone(records.len() as u32))
}

/// Refusals 1, 2 and 3. A record has `words` words, and there are at most `most` records.
pub fn judge_sizes(
    ops: usize,
    table: usize,
    (words, most): (usize, usize),
    marks: usize,
    chains: &[usize],
) -> Result<(), Refusal> {
    if ops > MOST_INPUT {
        Err(Refusal::TooMany)
    } else if !table.is_multiple_of(words) || !(1..=most).contains(&(table / words)) {
        Err(Refusal::Table)
    } else if marks != MARK_WORDS * ops || chains.iter().any(|&chain| chain != ops) {
        Err(Refusal::ResultRoom)
    } else {
        Ok(())
    }
}

/// Refusals 4, 5 and 6 at the first faulty place.
fn judge_operations(ops: &[u8]) -> Result<(), Refusal> {
    let mut surviving = 0;
    (0..)
        .zip(ops)
        .try_for_each(|(place, &op)| judge_operation(op, &mut surviving, place))
}

/// Refusals 4, 5 and 6 of one operation, and how many steps survive it.
pub fn judge_operation(op: u8, surviving: &mut usize, place: u32) -> Result<(), Refusal> {
    match op {
        0..=3 if *surviving == MOST_STEPS => return Err(Refusal::TooLong(place)),
        0..=3 => *surviving += 1,
        4 if *surviving == 0 => return Err(Refusal::NothingToTake(place)),
        4 => *surviving -= 1,
        _ => return Err(Refusal::BadDigit(place)),
    }
    Ok(())
}

/// Refusal 7, by the nodes before the first operation and those in the mark of each.
pub fn no_room(most: u32, alone: u32, marks: &[[u32; MARK_WORDS]]) -> Result<(), Refusal> {
    // The moment before the first operation has the place of the first.
    let mut nodes = std::iter::once(alone).chain(marks.iter().map(|mark| mark[0]));
    match nodes.position(|nodes| nodes > most) {
        Some(moment) => Err(Refusal::NoRoom(moment.saturating_sub(1) as u32)),
        None => Ok(()),
    }
}

/// The surviving steps, and after each operation its mark: the nodes in use, the visits at the corner where it ends, and
/// the records that differ from what they were before it.
fn run(start: Corner, ops: &[u8]) -> (Vec<u8>, Vec<[u32; MARK_WORDS]>) {
    let (mut steps, mut trail) = (Vec::new(), vec![start]);
    let mut journal = Journal::new(start);
    let mut marks = Vec::new();
    for &op in ops {
        let at = *trail.last().unwrap();
        if op == 4 {
            trail.pop();
            journal.back(*trail.last().unwrap(), at, steps.len() as u32);
            steps.pop();
        } else {
            let next = stepped(at, op);
            trail.push(next);
            steps.push(op);
            journal.step(at, next, steps.len() as u32);
        }
        let visits = journal.visits(*trail.last().unwrap());
        marks.push([journal.nodes(), visits, journal.changed()]);
    }
    (steps, marks)
}

/// The meeting with the least k.
fn first_meeting(corners: &[Corner]) -> Option<(u32, u32)> {
    let mut seen = HashMap::new();
    (0..)
        .zip(corners)
        .find_map(|(k, corner)| seen.insert(corner, k).map(|j| (j, k)))
}

/// The sum over the steps of x times the change of y.
fn area(corners: &[Corner]) -> i32 {
    corners
        .windows(2)
        .map(|ends| ends[0].0 * (ends[1].1 - ends[0].1))
        .sum()
}

/// The facts of the walk of these surviving steps.
pub fn facts(start: Corner, steps: &[u8]) -> PartyFacts {
    let corners = corners(start, steps);
    let last = corners[steps.len()];
    let mut different = corners.clone();
    different.sort_unstable();
    different.dedup();
    let verdict = if steps.is_empty() {
        Verdict::Nowhere
    } else if last == start {
        // Start and end meet; no others do if the corners before the end all differ.
        if steps.len() == 2 {
            Verdict::ThereAndBack
        } else if different.len() == steps.len() {
            Verdict::Room
        } else {
            Verdict::ClosedMeeting
        }
    } else if different.len() == corners.len() {
        Verdict::Open
    } else {
        Verdict::OpenMeeting
    };
    PartyFacts {
        verdict,
        steps: steps.len() as u32,
        corners: different.len() as u32,
        meeting: first_meeting(&corners),
        area: if verdict == Verdict::Room {
            area(&corners)
        } else {
            0
        },
        last: last.into(),
    }
}
