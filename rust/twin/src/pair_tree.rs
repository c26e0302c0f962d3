//! The linked quadtree that two parties share, in a lent table of words. A function that takes the party `q`, 0 or 1, means its words and links.

use answer::PAIR_RECORD_WORDS;
use answer::word::{self, EDGE, FIRST, LINK_STEP, NEED, NEIGHBOUR, PARENT, VISITS};

use crate::tree::{Corner, ROOT, back};

pub struct PairTree<'a> {
    words: &'a mut [u32],
    pub nodes: usize,
    /// No record before this one is free.
    low: usize,
}

impl<'a> PairTree<'a> {
    /// A cleared table with the root, which both parties need.
    pub fn new(words: &'a mut [u32]) -> PairTree<'a> {
        words.fill(0);
        let mut tree = PairTree {
            words,
            nodes: 1,
            low: 1,
        };
        tree.need(0, 0, 0);
        tree.need(1, 0, 0);
        tree
    }

    /// The start of the party with its ancestors, visited; none if the table is full.
    pub fn planted(&mut self, q: usize, start: Corner) -> Option<usize> {
        let mut node = 0;
        for i in (0..start.depth()).rev() {
            node = self.child(q, node, start.up_by(i).child_word(), 0)?;
        }
        self.visit(q, node, 0);
        Some(node)
    }

    fn word(&self, node: usize, word: usize) -> u32 {
        self.words[PAIR_RECORD_WORDS * node + word]
    }

    fn put(&mut self, node: usize, word: usize, value: u32) {
        self.words[PAIR_RECORD_WORDS * node + word] = value;
    }

    fn own(&self, q: usize, node: usize, word: usize) -> u32 {
        self.word(node, word::of(q, word))
    }

    fn put_own(&mut self, q: usize, node: usize, word: usize, value: u32) {
        self.put(node, word::of(q, word), value);
    }

    /// The node that this word refers to.
    fn node(&self, node: usize, word: usize) -> Option<usize> {
        (self.word(node, word) as usize).checked_sub(1)
    }

    /// The node that the party links to this one in the direction `way`.
    fn linked(&self, q: usize, node: usize, way: u8) -> Option<usize> {
        match self.own(q, node, LINK_STEP + way as usize) {
            0 => None,
            _ => self.node(node, NEIGHBOUR + way as usize),
        }
    }

    /// The node from which the party's last step came, which went in the direction `way`.
    pub fn origin(&self, node: usize, way: u8) -> usize {
        self.node(node, NEIGHBOUR + back(way) as usize)
            .expect("the ends of a step are linked")
    }

    fn set_link(&mut self, q: usize, u: usize, v: usize, way: u8, step: u32) {
        let (way, back) = (way as usize, back(way) as usize);
        self.put(u, NEIGHBOUR + way, v as u32 + 1);
        self.put_own(q, u, LINK_STEP + way, step);
        self.put(v, NEIGHBOUR + back, u as u32 + 1);
        self.put_own(q, v, LINK_STEP + back, step);
    }

    /// Takes the party's link away; the refs stay if the other party links the two.
    fn clear_link(&mut self, q: usize, u: usize, v: usize, way: u8) {
        let (way, back) = (way as usize, back(way) as usize);
        if self.own(1 - q, u, LINK_STEP + way) == 0 {
            self.put(u, NEIGHBOUR + way, 0);
            self.put(v, NEIGHBOUR + back, 0);
        }
        self.put_own(q, u, LINK_STEP + way, 0);
        self.put_own(q, v, LINK_STEP + back, 0);
    }

    /// One more than the step is stored.
    fn need(&mut self, q: usize, node: usize, step: u32) {
        self.put_own(q, node, NEED, step + 1);
    }

    /// The child of `u` at the word, which the party needs from the step on unless it does already; made in the lowest free record
    /// if it is not there; none if the table is full.
    fn child(&mut self, q: usize, u: usize, word: usize, step: u32) -> Option<usize> {
        if let Some(known) = self.node(u, word) {
            if self.own(q, known, NEED) == 0 {
                self.need(q, known, step);
            }
            return Some(known);
        }
        let mut node = self.low;
        // A record in use has a parent.
        while *self.words.get(PAIR_RECORD_WORDS * node + PARENT)? != 0 {
            node += 1;
        }
        self.low = node + 1;
        self.nodes += 1;
        self.put(u, word, node as u32 + 1);
        self.put(node, PARENT, u as u32 + 1);
        self.need(q, node, step);
        Some(node)
    }

    /// The neighbour of the node `u` of corner `c`, found or made by the step; none if the table is full. It climbs to the level
    /// of a link of the party's own, the root or a shared parent, and makes the link of each level on the way down.
    pub fn neighbour(
        &mut self,
        q: usize,
        u: usize,
        c: Corner,
        way: u8,
        step: u32,
    ) -> Option<usize> {
        if let Some(known) = self.linked(q, u, way) {
            return Some(known);
        }
        let (mut node, mut at, mut level) = (u, c, 0);
        while self.goes_up(q, node, at, way) {
            node = self.node(node, PARENT).expect("it is not the root");
            at = at.parent();
            level += 1;
        }
        let mut to = self.top(q, node, at, way, step)?;
        for left in (0..level).rev() {
            let at = c.up_by(left);
            let down = self.node(node, at.child_word());
            node = down.expect("the climb came this way");
            to = self.child(q, to, at.stepped(way).child_word(), step)?;
            self.set_link(q, node, to, way, step);
        }
        Some(to)
    }

    /// Whether the neighbour is looked up by its parents: the party has no link, neither is the root, and the parents differ.
    fn goes_up(&self, q: usize, u: usize, c: Corner, way: u8) -> bool {
        let e = c.stepped(way);
        self.own(q, u, LINK_STEP + way as usize) == 0 && c.parent() != e.parent()
    }

    /// The neighbour at the level where a climb stopped.
    fn top(&mut self, q: usize, u: usize, c: Corner, way: u8, step: u32) -> Option<usize> {
        if let Some(known) = self.linked(q, u, way) {
            return Some(known);
        }
        let e = c.stepped(way);
        let v = if e == ROOT {
            0
        } else {
            let over = self.node(u, PARENT).unwrap_or(u);
            self.child(q, over, e.child_word(), step)?
        };
        self.set_link(q, u, v, way, step);
        Some(v)
    }

    /// Counts a visit as corner k of the walk, and answers the k of the first visit here if there was one.
    pub fn visit(&mut self, q: usize, node: usize, k: u32) -> Option<u32> {
        let visits = self.visits(q, node);
        self.put_own(q, node, VISITS, visits + 1);
        if visits == 0 {
            self.put_own(q, node, FIRST, k + 1);
            return None;
        }
        Some(self.own(q, node, FIRST) - 1)
    }

    /// Takes the last visit back, and answers whether it was the only one.
    pub fn unvisit(&mut self, q: usize, node: usize) -> bool {
        let visits = self.visits(q, node);
        self.put_own(q, node, VISITS, visits - 1);
        if visits == 1 {
            self.put_own(q, node, FIRST, 0);
        }
        visits == 1
    }

    pub fn visits(&self, q: usize, node: usize) -> u32 {
        self.own(q, node, VISITS)
    }

    /// Counts a step along the edge between `u` and `v`, which lies in the direction `way` of `u`.
    pub fn tread(&mut self, q: usize, u: usize, v: usize, way: u8) {
        let count = self.own(q, u, EDGE + way as usize) + 1;
        self.put_edge(q, u, v, way, count);
    }

    /// Takes a step along the edge back.
    pub fn untread(&mut self, q: usize, u: usize, v: usize, way: u8) {
        let count = self.own(q, u, EDGE + way as usize) - 1;
        self.put_edge(q, u, v, way, count);
    }

    fn put_edge(&mut self, q: usize, u: usize, v: usize, way: u8, count: u32) {
        self.put_own(q, u, EDGE + way as usize, count);
        self.put_own(q, v, EDGE + back(way) as usize, count);
    }

    /// How many records the party's last step changed, which led from `u` to `v` in the direction `way`.
    pub fn changed(&self, q: usize, mut u: usize, mut v: usize, way: u8, step: u32) -> u32 {
        let mut sum = 2;
        while let Some(above) = self.node(u, PARENT)
            && self.own(q, above, LINK_STEP + way as usize) == step
        {
            let beside = self.node(above, NEIGHBOUR + way as usize);
            let beside = beside.expect("a link's step has a link");
            sum += u32::from(above != v) + u32::from(beside != u);
            (u, v) = (above, beside);
        }
        let made = self.own(q, v, NEED) == step + 1 && self.own(1 - q, v, NEED) == 0;
        sum + u32::from(made && self.node(v, PARENT) != Some(u))
    }

    /// Clears the links that the party's step made, from `u` in the direction `way` and up.
    pub fn clear_links(&mut self, q: usize, mut u: usize, way: u8, step: u32) {
        while self.own(q, u, LINK_STEP + way as usize) == step {
            let v = self.node(u, NEIGHBOUR + way as usize);
            self.clear_link(q, u, v.expect("a link's step has a link"), way);
            match self.node(u, PARENT) {
                Some(up) => u = up,
                None => return,
            }
        }
    }

    /// Leaves the nodes that the party's step needed, from the node `u` of corner `c` and up: a record is freed unless the other party
    /// needs the node.
    pub fn drop_nodes(&mut self, q: usize, mut u: usize, mut c: Corner, step: u32) {
        while self.own(q, u, NEED) == step + 1 {
            let up = self.node(u, PARENT).expect("the root is always needed");
            if self.own(1 - q, u, NEED) == 0 {
                self.put(up, c.child_word(), 0);
                self.words[PAIR_RECORD_WORDS * u..][..PAIR_RECORD_WORDS].fill(0);
                self.nodes -= 1;
                self.low = self.low.min(u);
            } else {
                self.put_own(q, u, NEED, 0);
            }
            u = up;
            c = c.parent();
        }
    }
}
