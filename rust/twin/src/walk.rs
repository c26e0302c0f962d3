//! The whole call of the walk.

use answer::{
    Facts, MARK_WORDS, MOST_INPUT, MOST_RECORDS, MOST_STEPS, PartyFacts, RECORD_WORDS, Refusal,
    Verdict,
};

use crate::tree::{Corner, STEPS, Tree, back, judge_start};

/// Judges the walk of `ops` from `start` and fills the three buffers.
pub fn walk(
    start: (i32, i32),
    ops: &[u8],
    table: &mut [u32],
    marks: &mut [u32],
    chain: &mut [u8],
) -> Result<Facts, Refusal> {
    let start = Corner::from(start);
    judge_input(start, ops, table.len(), marks.len(), chain.len())?;
    table.fill(0);
    set_out(start, ops, table, marks, chain)
}

/// The same if the table is all zero, and need not be cleared.
pub fn walk_clear(
    start: (i32, i32),
    ops: &[u8],
    table: &mut [u32],
    marks: &mut [u32],
    chain: &mut [u8],
) -> Result<Facts, Refusal> {
    let start = Corner::from(start);
    judge_input(start, ops, table.len(), marks.len(), chain.len())?;
    set_out(start, ops, table, marks, chain)
}

/// All refusals but 7, by the lengths of the buffers.
fn judge_input(
    start: Corner,
    ops: &[u8],
    table: usize,
    marks: usize,
    chain: usize,
) -> Result<(), Refusal> {
    let sizes = (RECORD_WORDS, MOST_RECORDS);
    judge_sizes(ops.len(), table, sizes, marks, &[chain])?;
    judge_start(start)?;
    judge_operations(ops)
}

/// Walks operations without a fault in a table of zeros.
fn set_out(
    start: Corner,
    ops: &[u8],
    table: &mut [u32],
    marks: &mut [u32],
    chain: &mut [u8],
) -> Result<Facts, Refusal> {
    let Some(mut walk) = Walk::new(table, start) else {
        table.fill(0);
        marks.fill(0);
        chain.fill(0);
        return Err(Refusal::NoRoom(0));
    };
    for (i, (&op, mark)) in ops
        .iter()
        .zip(marks.chunks_exact_mut(MARK_WORDS))
        .enumerate()
    {
        if op == 4 {
            walk.take_back(chain);
        } else if !walk.step(chain, op) {
            table.fill(0);
            marks.fill(0);
            chain.fill(0);
            return Err(Refusal::NoRoom(i as u32));
        }
        mark[0] = walk.tree.nodes as u32;
        mark[1] = walk.tree.visits(walk.node);
        mark[2] = walk.changed;
    }
    let (steps, rest) = chain.split_at_mut(walk.steps as usize);
    rest.fill(0);
    let facts = facts(start, walk.at, walk.corners, walk.meeting, steps);
    Ok(facts.alone(walk.tree.nodes as u32))
}

/// Refusals 1, 2 and 3. A record has `record` words, and there are at most `most` records.
pub fn judge_sizes(
    ops: usize,
    words: usize,
    (record, most): (usize, usize),
    marks: usize,
    chains: &[usize],
) -> Result<(), Refusal> {
    if ops > MOST_INPUT {
        return Err(Refusal::TooMany);
    }
    if words == 0 || !words.is_multiple_of(record) || words / record > most {
        return Err(Refusal::Table);
    }
    if marks != MARK_WORDS * ops || chains.iter().any(|&chain| chain != ops) {
        return Err(Refusal::ResultRoom);
    }
    Ok(())
}

/// Refusals 4, 5 and 6. Steps alone, and not too many of them, are good at once.
fn judge_operations(ops: &[u8]) -> Result<(), Refusal> {
    if ops.len() <= MOST_STEPS && ops.iter().fold(0, |most, &op| op.max(most)) < 4 {
        return Ok(());
    }
    let mut steps = 0;
    for (i, &op) in ops.iter().enumerate() {
        judge_operation(op, &mut steps, i)?;
    }
    Ok(())
}

/// Refusals 4, 5 and 6 of the operation at place i, and how many steps survive it.
pub fn judge_operation(op: u8, steps: &mut usize, i: usize) -> Result<(), Refusal> {
    if op > 4 {
        return Err(Refusal::BadDigit(i as u32));
    }
    if op == 4 {
        if *steps == 0 {
            return Err(Refusal::NothingToTake(i as u32));
        }
        *steps -= 1;
    } else {
        if *steps == MOST_STEPS {
            return Err(Refusal::TooLong(i as u32));
        }
        *steps += 1;
    }
    Ok(())
}

/// The walk after some of its operations.
struct Walk<'a> {
    tree: Tree<'a>,
    node: usize,
    at: Corner,
    steps: u32,
    corners: u32,
    meeting: Option<(u32, u32)>,
    /// The records that the last operation changed.
    changed: u32,
}

impl<'a> Walk<'a> {
    /// At the start; none if the table is too small for it.
    fn new(table: &'a mut [u32], start: Corner) -> Option<Walk<'a>> {
        let tree = Tree::new(table, start)?;
        Some(Walk {
            node: tree.nodes - 1,
            tree,
            at: start,
            steps: 0,
            corners: 1,
            meeting: None,
            changed: 0,
        })
    }

    /// One step on; false if the table is full.
    fn step(&mut self, chain: &mut [u8], way: u8) -> bool {
        let step = self.steps + 1;
        let Some(node) = self.tree.neighbour(self.node, self.at, way, step) else {
            return false;
        };
        match self.tree.visit(node, step) {
            None => self.corners += 1,
            Some(first) if self.meeting.is_none() => self.meeting = Some((first, step)),
            Some(_) => {}
        }
        self.tree.tread(self.node, node, way);
        self.changed = self.tree.changed(self.node, node, way, step);
        chain[self.steps as usize] = way;
        self.node = node;
        self.at = self.at.stepped(way);
        self.steps = step;
        true
    }

    /// Takes the last step back.
    fn take_back(&mut self, chain: &[u8]) {
        let step = self.steps;
        let way = chain[step as usize - 1];
        let from = self.tree.linked(self.node, back(way));
        let from = from.expect("the ends of a step are linked");
        self.changed = self.tree.changed(from, self.node, way, step);
        self.tree.untread(from, self.node, way);
        if self.tree.unvisit(self.node) {
            self.corners -= 1;
        }
        self.tree.clear_links(from, way, step);
        self.tree.drop_nodes(self.node, self.at, step);
        self.meeting = self.meeting.filter(|&(_, k)| k != step);
        self.node = from;
        self.at = self.at.stepped(back(way));
        self.steps = step - 1;
    }
}

/// The facts of a walk that came from `start` to `at`, by its different corners and its first meeting.
pub fn facts(
    start: Corner,
    at: Corner,
    corners: u32,
    meeting: Option<(u32, u32)>,
    steps: &[u8],
) -> PartyFacts {
    let n = steps.len() as u32;
    let verdict = match meeting {
        _ if n == 0 => Verdict::Nowhere,
        None => Verdict::Open,
        Some(_) if at != start => Verdict::OpenMeeting,
        Some(_) if n == 2 => Verdict::ThereAndBack,
        Some((_, k)) if k == n => Verdict::Room,
        Some(_) => Verdict::ClosedMeeting,
    };
    PartyFacts {
        verdict,
        steps: n,
        corners,
        meeting,
        area: if verdict == Verdict::Room {
            area(start, steps)
        } else {
            0
        },
        last: (at.x, at.y).into(),
    }
}

fn area(start: Corner, steps: &[u8]) -> i32 {
    let (mut x, mut area) = (start.x, 0);
    for &step in steps {
        let (east, north) = STEPS[usize::from(step)];
        area += x * north;
        x += east;
    }
    area
}
