//! The whole call of two parties that share a table.

use std::collections::{BTreeSet, HashMap};
use std::hash::Hash;

use answer::word::{self, EDGE, FIRST, LINK_STEP, NEED, NEIGHBOUR, PARENT, VISITS};
use answer::{MARK_WORDS, MOST_PAIR_RECORDS, PAIR_RECORD_WORDS, PairFacts, Refusal};

use crate::grid::{Corner, judge_start, lineage, parent, stepped};
use crate::record::child_word;
use crate::walk::{facts, judge_operation, judge_sizes, no_room};

type Record = [u32; PAIR_RECORD_WORDS];

/// Judges the walks of two parties, whose operations stand in `ops`, from their starts and fills the four buffers.
pub fn walk_two(
    starts: [Corner; 2],
    ops: &[u8],
    table: &mut [u32],
    marks: &mut [u32],
    chains: [&mut [u8]; 2],
) -> Result<PairFacts, Refusal> {
    let sizes = (PAIR_RECORD_WORDS, MOST_PAIR_RECORDS);
    let lengths = chains.each_ref().map(|chain| chain.len());
    judge_sizes(ops.len(), table.len(), sizes, marks.len(), &lengths)?;
    starts.into_iter().try_for_each(judge_start)?;
    judge_bytes(ops)?;
    let mut floor = Floor::new(starts);
    let alone = floor.nodes();
    let moments: Vec<_> = ops.iter().map(|&op| floor.operate(op)).collect();
    let room = (table.len() / PAIR_RECORD_WORDS) as u32;
    table.fill(0);
    marks.fill(0);
    let chains = chains.map(|chain| {
        chain.fill(0);
        chain
    });
    no_room(room, alone, &moments)?;
    for (&node, &number) in &floor.numbers {
        table[PAIR_RECORD_WORDS * number..][..PAIR_RECORD_WORDS]
            .copy_from_slice(&floor.record(node));
    }
    marks.copy_from_slice(moments.as_flattened());
    for (chain, party) in chains.into_iter().zip(&floor.parties) {
        chain[..party.steps.len()].copy_from_slice(&party.steps);
    }
    Ok(PairFacts {
        nodes: floor.nodes(),
        parties: [0, 1].map(|q| facts(starts[q], &floor.parties[q].steps)),
    })
}

/// Refusals 20, 4, 5 and 6 at the first faulty place.
fn judge_bytes(ops: &[u8]) -> Result<(), Refusal> {
    let mut surviving = [0; 2];
    for (place, &op) in (0..).zip(ops) {
        let own = surviving.get_mut(usize::from(op / 16));
        judge_operation(op % 16, own.ok_or(Refusal::UnknownParty(place))?, place)?;
    }
    Ok(())
}

/// What one party's surviving steps did. Each list has the steps that did it, in their order, and is not empty; step 0 is the
/// start.
#[derive(Default)]
struct Party {
    steps: Vec<u8>,
    corners: Vec<Corner>,
    visits: HashMap<Corner, Vec<u32>>,
    needs: HashMap<Corner, Vec<u32>>,
    links: HashMap<(Corner, Corner), Vec<u32>>,
    edges: HashMap<(Corner, Corner), Vec<u32>>,
}

/// Adds the step to the list of the key, and says whether there was none.
fn enter<K: Eq + Hash>(lists: &mut HashMap<K, Vec<u32>>, key: K, step: u32) -> bool {
    let list = lists.entry(key).or_default();
    list.push(step);
    list.len() == 1
}

/// Takes the last step off the list of the key, and says whether there is none now.
fn withdraw<K: Eq + Hash>(lists: &mut HashMap<K, Vec<u32>>, key: K) -> bool {
    let list = lists.get_mut(&key).expect("it was entered");
    list.pop();
    let none = list.is_empty();
    if none {
        lists.remove(&key);
    }
    none
}

/// The pairs that a step between these corners links, both ways.
fn linked(from: Corner, to: Corner) -> impl Iterator<Item = (Corner, Corner)> {
    lineage(from)
        .zip(lineage(to))
        .filter(|(a, b)| a != b)
        .flat_map(|(a, b)| [(a, b), (b, a)])
}

/// Both parties, and which node stands in which record.
struct Floor {
    parties: [Party; 2],
    numbers: HashMap<Corner, usize>,
    held: Vec<Option<Corner>>,
    free: BTreeSet<usize>,
    /// The records after the operation before, and the numbers of those that this one may have changed.
    before: Vec<Record>,
    touched: BTreeSet<usize>,
}

impl Floor {
    /// Both parties at their starts.
    fn new(starts: [Corner; 2]) -> Floor {
        let mut floor = Floor {
            parties: Default::default(),
            numbers: HashMap::new(),
            held: Vec::new(),
            free: BTreeSet::new(),
            before: Vec::new(),
            touched: BTreeSet::new(),
        };
        for (q, start) in starts.into_iter().enumerate() {
            floor.arrive(q, start);
        }
        floor.changed();
        floor
    }

    fn nodes(&self) -> u32 {
        self.numbers.len() as u32
    }

    /// One byte; gives its mark.
    fn operate(&mut self, op: u8) -> [u32; MARK_WORDS] {
        let (q, op) = (usize::from(op / 16), op % 16);
        if op == 4 {
            self.back(q);
        } else {
            self.step(q, op);
        }
        let party = &self.parties[q];
        let visits = party.visits[party.corners.last().unwrap()].len() as u32;
        [self.nodes(), visits, self.changed()]
    }

    fn step(&mut self, q: usize, way: u8) {
        let from = *self.parties[q].corners.last().unwrap();
        let to = stepped(from, way);
        self.parties[q].steps.push(way);
        let step = self.parties[q].steps.len() as u32;
        self.arrive(q, to);
        for pair in linked(from, to) {
            if enter(&mut self.parties[q].links, pair, step) {
                self.touch(pair.0);
            }
        }
        for edge in [(from, to), (to, from)] {
            enter(&mut self.parties[q].edges, edge, step);
            self.touch(edge.0);
        }
    }

    fn back(&mut self, q: usize) {
        let party = &mut self.parties[q];
        party.steps.pop();
        let to = party.corners.pop().unwrap();
        let from = *party.corners.last().unwrap();
        withdraw(&mut party.visits, to);
        for edge in [(from, to), (to, from)] {
            withdraw(&mut self.parties[q].edges, edge);
            self.touch(edge.0);
        }
        for pair in linked(from, to) {
            if withdraw(&mut self.parties[q].links, pair) {
                self.touch(pair.0);
            }
        }
        for node in lineage(to) {
            if withdraw(&mut self.parties[q].needs, node) {
                self.touch(node);
                if !self.parties[1 - q].needs.contains_key(&node) {
                    self.release(node);
                }
            }
        }
    }

    /// Party q stands on one corner more, and needs it with its ancestors; those that are new get the lowest free records,
    /// nearer the root first.
    fn arrive(&mut self, q: usize, corner: Corner) {
        let step = self.parties[q].corners.len() as u32;
        let mut line: Vec<Corner> = lineage(corner).collect();
        line.reverse();
        for node in line {
            if !self.numbers.contains_key(&node) {
                self.place(node);
            }
            if enter(&mut self.parties[q].needs, node, step) {
                self.touch(node);
            }
        }
        enter(&mut self.parties[q].visits, corner, step);
        self.parties[q].corners.push(corner);
        self.touch(corner);
    }

    fn place(&mut self, node: Corner) {
        let number = self.free.pop_first().unwrap_or(self.held.len());
        if number == self.held.len() {
            self.held.push(None);
            self.before.push([0; PAIR_RECORD_WORDS]);
        }
        self.held[number] = Some(node);
        self.numbers.insert(node, number);
        self.touch(node);
        parent(node).inspect(|&up| self.touch(up));
    }

    fn release(&mut self, node: Corner) {
        parent(node).inspect(|&up| self.touch(up));
        let number = self.numbers.remove(&node).expect("it is in use");
        self.held[number] = None;
        self.free.insert(number);
    }

    fn touch(&mut self, node: Corner) {
        self.touched.insert(self.numbers[&node]);
    }

    /// How many records differ from what they were after the operation before.
    fn changed(&mut self) -> u32 {
        let mut changed = 0;
        for number in std::mem::take(&mut self.touched) {
            let now = self.held[number].map_or([0; PAIR_RECORD_WORDS], |node| self.record(node));
            changed += u32::from(now != self.before[number]);
            self.before[number] = now;
        }
        changed
    }

    /// The words of a node.
    fn record(&self, node: Corner) -> Record {
        let mut record = [0; PAIR_RECORD_WORDS];
        let reference = |node: Corner| self.numbers.get(&node).map_or(0, |&r| r as u32 + 1);
        record[PARENT] = parent(node).map_or(0, reference);
        for child in children(node) {
            record[child_word(child)] = reference(child);
        }
        for way in 0..4 {
            let beside = (node, stepped(node, way as u8));
            for (q, party) in self.parties.iter().enumerate() {
                if let Some(steps) = party.links.get(&beside) {
                    record[NEIGHBOUR + way] = reference(beside.1);
                    record[word::of(q, LINK_STEP + way)] = steps[0];
                }
                let edges = party.edges.get(&beside);
                record[word::of(q, EDGE + way)] = edges.map_or(0, |steps| steps.len() as u32);
            }
        }
        for (q, party) in self.parties.iter().enumerate() {
            if let Some(steps) = party.needs.get(&node) {
                record[word::of(q, NEED)] = steps[0] + 1;
            }
            if let Some(steps) = party.visits.get(&node) {
                record[word::of(q, VISITS)] = steps.len() as u32;
                record[word::of(q, FIRST)] = steps[0] + 1;
            }
        }
        record
    }
}

/// The corners whose parent this is.
fn children(node: Corner) -> impl Iterator<Item = Corner> {
    let axis = |v: i32| 2 * v - 1..=2 * v + 1;
    axis(node.0)
        .flat_map(move |x| axis(node.1).map(move |y| (x, y)))
        .filter(move |&child| parent(child) == Some(node))
}
