//! The whole call of two parties in one table.

use answer::{MARK_WORDS, MOST_PAIR_RECORDS, PAIR_RECORD_WORDS, PairFacts, PartyFacts, Refusal};

use crate::pair_tree::PairTree;
use crate::tree::{Corner, back, judge_start};
use crate::walk::{facts, judge_operation, judge_sizes};

/// Judges the walks of two parties, whose operations stand in `ops`, from their starts and fills the four buffers.
pub fn walk_two(
    starts: [(i32, i32); 2],
    ops: &[u8],
    table: &mut [u32],
    marks: &mut [u32],
    [first, second]: [&mut [u8]; 2],
) -> Result<PairFacts, Refusal> {
    let starts = starts.map(Corner::from);
    let sizes = (PAIR_RECORD_WORDS, MOST_PAIR_RECORDS);
    let lengths = [first.len(), second.len()];
    judge_sizes(ops.len(), table.len(), sizes, marks.len(), &lengths)?;
    judge_start(starts[0])?;
    judge_start(starts[1])?;
    judge_bytes(ops)?;
    let walked = run(starts, ops, table, marks, [first, second]);
    if walked.is_err() {
        table.fill(0);
        marks.fill(0);
        first.fill(0);
        second.fill(0);
    }
    walked
}

/// Refusals 20, 4, 5 and 6 at the first faulty place.
fn judge_bytes(ops: &[u8]) -> Result<(), Refusal> {
    let mut steps = [0; 2];
    for (i, &op) in ops.iter().enumerate() {
        if op > 31 {
            return Err(Refusal::UnknownParty(i as u32));
        }
        judge_operation(op % 16, &mut steps[usize::from(op / 16)], i)?;
    }
    Ok(())
}

/// The operations one after the other; refusal 7 if the table is full.
fn run(
    starts: [Corner; 2],
    ops: &[u8],
    table: &mut [u32],
    marks: &mut [u32],
    [first, second]: [&mut [u8]; 2],
) -> Result<PairFacts, Refusal> {
    let mut tree = PairTree::new(table);
    let mut plant = |q: usize| {
        let node = tree.planted(q, starts[q]).ok_or(Refusal::NoRoom(0))?;
        Ok(Party::new(starts[q], node))
    };
    let (mut one, mut two) = (plant(0)?, plant(1)?);
    for (i, (&op, mark)) in ops
        .iter()
        .zip(marks.chunks_exact_mut(MARK_WORDS))
        .enumerate()
    {
        let [visits, changed] = if op < 16 {
            one.operate(&mut tree, 0, first, op)
        } else {
            two.operate(&mut tree, 1, second, op - 16)
        }
        .ok_or(Refusal::NoRoom(i as u32))?;
        mark[0] = tree.nodes as u32;
        mark[1] = visits;
        mark[2] = changed;
    }
    Ok(PairFacts {
        nodes: tree.nodes as u32,
        parties: [
            one.settled(starts[0], first),
            two.settled(starts[1], second),
        ],
    })
}

/// A party after some of its operations.
struct Party {
    node: usize,
    at: Corner,
    steps: u32,
    corners: u32,
    meeting: Option<(u32, u32)>,
}

impl Party {
    fn new(start: Corner, node: usize) -> Party {
        Party {
            node,
            at: start,
            steps: 0,
            corners: 1,
            meeting: None,
        }
    }

    /// One operation: the visits at the corner where it ends, and the records that changed; none if the table is full.
    fn operate(
        &mut self,
        tree: &mut PairTree,
        q: usize,
        chain: &mut [u8],
        op: u8,
    ) -> Option<[u32; 2]> {
        let changed = if op == 4 {
            self.take_back(tree, q, chain)
        } else {
            self.step(tree, q, chain, op)?
        };
        Some([tree.visits(q, self.node), changed])
    }

    fn step(&mut self, tree: &mut PairTree, q: usize, chain: &mut [u8], way: u8) -> Option<u32> {
        let step = self.steps + 1;
        let node = tree.neighbour(q, self.node, self.at, way, step)?;
        match tree.visit(q, node, step) {
            None => self.corners += 1,
            Some(first) if self.meeting.is_none() => self.meeting = Some((first, step)),
            Some(_) => {}
        }
        tree.tread(q, self.node, node, way);
        let changed = tree.changed(q, self.node, node, way, step);
        chain[self.steps as usize] = way;
        self.node = node;
        self.at = self.at.stepped(way);
        self.steps = step;
        Some(changed)
    }

    fn take_back(&mut self, tree: &mut PairTree, q: usize, chain: &[u8]) -> u32 {
        let step = self.steps;
        let way = chain[step as usize - 1];
        let from = tree.origin(self.node, way);
        let changed = tree.changed(q, from, self.node, way, step);
        tree.untread(q, from, self.node, way);
        if tree.unvisit(q, self.node) {
            self.corners -= 1;
        }
        tree.clear_links(q, from, way, step);
        tree.drop_nodes(q, self.node, self.at, step);
        self.meeting = self.meeting.filter(|&(_, k)| k != step);
        self.node = from;
        self.at = self.at.stepped(back(way));
        self.steps = step - 1;
        changed
    }

    /// The facts of the party, and its chain with zeros after its steps.
    fn settled(&self, start: Corner, chain: &mut [u8]) -> PartyFacts {
        let (steps, rest) = chain.split_at_mut(self.steps as usize);
        rest.fill(0);
        facts(start, self.at, self.corners, self.meeting, steps)
    }
}
