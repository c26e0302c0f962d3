//! The records of a walk kept from operation to operation, to see which of them an operation changes.

use std::collections::HashMap;

use answer::RECORD_WORDS;
use answer::word::{EDGE, FIRST, LINK_STEP, NEED, NEIGHBOUR, PARENT, VISITS};

use crate::grid::{Corner, lineage, parent};
use crate::record::{Record, child_word, direction};

/// The records of the nodes in use; and of those that were touched since the last count, what they were then.
pub struct Journal {
    records: HashMap<Corner, Record>,
    numbers: HashMap<Corner, u32>,
    before: HashMap<Corner, Option<Record>>,
}

impl Journal {
    /// The walk with no step.
    pub fn new(start: Corner) -> Journal {
        let mut journal = Journal {
            records: HashMap::new(),
            numbers: HashMap::new(),
            before: HashMap::new(),
        };
        journal.make(start, 0);
        journal.visit(start, 0);
        journal.before.clear();
        journal
    }

    pub fn nodes(&self) -> u32 {
        self.records.len() as u32
    }

    pub fn visits(&self, corner: Corner) -> u32 {
        self.records[&corner][VISITS]
    }

    /// Step k, from one corner to the next.
    pub fn step(&mut self, from: Corner, to: Corner, k: u32) {
        self.make(to, k);
        for (a, b) in lineage(from).zip(lineage(to)) {
            if a != b && self.records[&a][LINK_STEP + direction(a, b)] == 0 {
                self.link(a, b, k);
                self.link(b, a, k);
            }
        }
        self.visit(to, k);
        self.touch(from)[EDGE + direction(from, to)] += 1;
        self.touch(to)[EDGE + direction(to, from)] += 1;
    }

    /// Step k taken back.
    pub fn back(&mut self, from: Corner, to: Corner, k: u32) {
        self.touch(from)[EDGE + direction(from, to)] -= 1;
        self.touch(to)[EDGE + direction(to, from)] -= 1;
        let record = self.touch(to);
        record[VISITS] -= 1;
        if record[VISITS] == 0 {
            record[FIRST] = 0;
        }
        for (a, b) in lineage(from).zip(lineage(to)) {
            if a != b && self.records[&a][LINK_STEP + direction(a, b)] == k {
                for (a, b) in [(a, b), (b, a)] {
                    let way = direction(a, b);
                    let record = self.touch(a);
                    record[NEIGHBOUR + way] = 0;
                    record[LINK_STEP + way] = 0;
                }
            }
        }
        for node in lineage(to) {
            if self.records[&node][NEED] == k {
                let up = parent(node).expect("the root is never taken back");
                self.touch(up)[child_word(node)] = 0;
                self.touch(node);
                self.records.remove(&node);
                self.numbers.remove(&node);
            }
        }
    }

    /// How many records differ from what they were at the last count.
    pub fn changed(&mut self) -> u32 {
        let before = std::mem::take(&mut self.before);
        let differs =
            |(node, was): &(Corner, Option<Record>)| self.records.get(node) != was.as_ref();
        before.into_iter().filter(differs).count() as u32
    }

    /// The record of the node, to be written to.
    fn touch(&mut self, node: Corner) -> &mut Record {
        let was = self.records.get(&node).copied();
        self.before.entry(node).or_insert(was);
        self.records.entry(node).or_insert([0; RECORD_WORDS])
    }

    /// The node with its ancestors, each made if it is not there, the nearer to the root first.
    fn make(&mut self, node: Corner, k: u32) {
        if self.records.contains_key(&node) {
            return;
        }
        let mut above = 0;
        if let Some(up) = parent(node) {
            self.make(up, k);
            above = self.numbers[&up] + 1;
            self.touch(up)[child_word(node)] = self.nodes() + 1;
        }
        self.numbers.insert(node, self.nodes());
        let record = self.touch(node);
        record[PARENT] = above;
        record[NEED] = k;
    }

    fn link(&mut self, a: Corner, b: Corner, k: u32) {
        let (way, to) = (direction(a, b), self.numbers[&b] + 1);
        let record = self.touch(a);
        record[NEIGHBOUR + way] = to;
        record[LINK_STEP + way] = k;
    }

    fn visit(&mut self, corner: Corner, k: u32) {
        let record = self.touch(corner);
        record[VISITS] += 1;
        if record[FIRST] == 0 {
            record[FIRST] = k + 1;
        }
    }
}
