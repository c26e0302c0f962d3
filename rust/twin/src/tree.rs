//! The linked quadtree, in a lent table of words.

use answer::word::{CHILD, EDGE, FIRST, LINK_STEP, NEED, NEIGHBOUR, PARENT, VISITS};
use answer::{MOST_START, RECORD_WORDS, Refusal};

#[derive(Clone, Copy, PartialEq, Eq)]
pub struct Corner {
    pub x: i32,
    pub y: i32,
}

pub const ROOT: Corner = Corner { x: 0, y: 0 };

/// The change of x and y by each step.
pub const STEPS: [(i32, i32); 4] = [(1, 0), (0, 1), (-1, 0), (0, -1)];

impl From<(i32, i32)> for Corner {
    fn from((x, y): (i32, i32)) -> Corner {
        Corner { x, y }
    }
}

/// Refusal 10.
pub fn judge_start(start: Corner) -> Result<(), Refusal> {
    let within = |v: i32| (-MOST_START..=MOST_START).contains(&v);
    if within(start.x) && within(start.y) {
        Ok(())
    } else {
        Err(Refusal::StartRange)
    }
}

impl Corner {
    pub fn stepped(self, way: u8) -> Corner {
        let (east, north) = STEPS[usize::from(way)];
        Corner {
            x: self.x + east,
            y: self.y + north,
        }
    }

    pub fn parent(self) -> Corner {
        Corner {
            x: self.x / 2,
            y: self.y / 2,
        }
    }

    /// The i-th parent; the root is its own parent.
    pub fn up_by(self, i: u32) -> Corner {
        (0..i).fold(self, |c, _| c.parent())
    }

    /// How many parents it has.
    pub fn depth(self) -> u32 {
        let depth = (0..).find(|&i| self.up_by(i) == ROOT);
        depth.expect("the root is above every corner")
    }

    /// The word of the parent's record that holds this corner's ref.
    pub fn child_word(self) -> usize {
        let side = |v: i32| match v {
            -1 => 0,
            _ => 1 + (v & 1) as usize,
        };
        CHILD + 3 * side(self.x) + side(self.y)
    }
}

/// The direction back.
pub fn back(way: u8) -> u8 {
    (way + 2) % 4
}

pub struct Tree<'a> {
    words: &'a mut [u32],
    pub nodes: usize,
}

impl<'a> Tree<'a> {
    /// Plants the ancestors of the start and the start in a table of zeros, and visits it; none if the table is full.
    pub fn new(words: &'a mut [u32], start: Corner) -> Option<Tree<'a>> {
        let mut tree = Tree { words, nodes: 1 };
        let at = tree.planted(start)?;
        tree.visit(at, 0);
        Some(tree)
    }

    /// The node of the corner, made with its ancestors if they are not there.
    fn planted(&mut self, c: Corner) -> Option<usize> {
        let mut node = 0;
        for i in (0..c.depth()).rev() {
            node = self.child(node, c.up_by(i).child_word(), 0)?;
        }
        Some(node)
    }

    fn word(&self, node: usize, word: usize) -> u32 {
        self.words[RECORD_WORDS * node + word]
    }

    fn put(&mut self, node: usize, word: usize, value: u32) {
        self.words[RECORD_WORDS * node + word] = value;
    }

    /// The node that this word refers to.
    fn node(&self, node: usize, word: usize) -> Option<usize> {
        (self.word(node, word) as usize).checked_sub(1)
    }

    /// The node linked to this one in the direction `way`.
    pub fn linked(&self, node: usize, way: u8) -> Option<usize> {
        self.node(node, NEIGHBOUR + way as usize)
    }

    fn set_link(&mut self, u: usize, v: usize, way: u8, step: u32) {
        let (way, back) = (way as usize, back(way) as usize);
        self.put(u, NEIGHBOUR + way, v as u32 + 1);
        self.put(u, LINK_STEP + way, step);
        self.put(v, NEIGHBOUR + back, u as u32 + 1);
        self.put(v, LINK_STEP + back, step);
    }

    fn clear_link(&mut self, u: usize, v: usize, way: u8) {
        let (way, back) = (way as usize, back(way) as usize);
        self.put(u, NEIGHBOUR + way, 0);
        self.put(u, LINK_STEP + way, 0);
        self.put(v, NEIGHBOUR + back, 0);
        self.put(v, LINK_STEP + back, 0);
    }

    /// The child of `u` at the word, made by the step if it is not there; none if the table is full.
    fn child(&mut self, u: usize, word: usize, step: u32) -> Option<usize> {
        if let Some(known) = self.node(u, word) {
            return Some(known);
        }
        let node = self.nodes;
        if RECORD_WORDS * node >= self.words.len() {
            return None;
        }
        self.nodes += 1;
        self.put(u, word, node as u32 + 1);
        self.put(node, PARENT, u as u32 + 1);
        self.put(node, NEED, step);
        Some(node)
    }

    /// The neighbour of the node `u` of corner `c`, found or made by the step; none if the table is full. It climbs to the level
    /// of a link, the root or a shared parent, and makes the link of each level on the way down.
    pub fn neighbour(&mut self, u: usize, c: Corner, way: u8, step: u32) -> Option<usize> {
        if let Some(known) = self.linked(u, way) {
            return Some(known);
        }
        let (mut node, mut at, mut level) = (u, c, 0);
        while self.goes_up(node, at, way) {
            node = self.node(node, PARENT).expect("it is not the root");
            at = at.parent();
            level += 1;
        }
        let mut to = self.top(node, at, way, step)?;
        for left in (0..level).rev() {
            let at = c.up_by(left);
            let down = self.node(node, at.child_word());
            node = down.expect("the climb came this way");
            to = self.child(to, at.stepped(way).child_word(), step)?;
            self.set_link(node, to, way, step);
        }
        Some(to)
    }

    /// Whether the neighbour is looked up by its parents: there is no link, and the parents differ. The root and its neighbours
    /// have the root as parent.
    fn goes_up(&self, u: usize, c: Corner, way: u8) -> bool {
        let e = c.stepped(way);
        self.linked(u, way).is_none() && c.parent() != e.parent()
    }

    /// The neighbour at the level where a climb stopped.
    fn top(&mut self, u: usize, c: Corner, way: u8, step: u32) -> Option<usize> {
        if let Some(known) = self.linked(u, way) {
            return Some(known);
        }
        let e = c.stepped(way);
        let v = if e == ROOT {
            0
        } else {
            let over = self.node(u, PARENT).unwrap_or(u);
            self.child(over, e.child_word(), step)?
        };
        self.set_link(u, v, way, step);
        Some(v)
    }

    /// Counts a visit as corner k of the walk, and answers the k of the first visit here if there was one.
    pub fn visit(&mut self, node: usize, k: u32) -> Option<u32> {
        let visits = self.word(node, VISITS);
        self.put(node, VISITS, visits + 1);
        if visits == 0 {
            self.put(node, FIRST, k + 1);
            return None;
        }
        Some(self.word(node, FIRST) - 1)
    }

    /// Takes the last visit back, and answers whether it was the only one.
    pub fn unvisit(&mut self, node: usize) -> bool {
        let visits = self.word(node, VISITS);
        self.put(node, VISITS, visits - 1);
        if visits == 1 {
            self.put(node, FIRST, 0);
        }
        visits == 1
    }

    /// Counts a step along the edge between `u` and `v`, which lies in the direction `way` of `u`.
    pub fn tread(&mut self, u: usize, v: usize, way: u8) {
        let count = self.word(u, EDGE + way as usize) + 1;
        self.put_edge(u, v, way, count);
    }

    /// Takes a step along the edge back.
    pub fn untread(&mut self, u: usize, v: usize, way: u8) {
        let count = self.word(u, EDGE + way as usize) - 1;
        self.put_edge(u, v, way, count);
    }

    fn put_edge(&mut self, u: usize, v: usize, way: u8, count: u32) {
        self.put(u, EDGE + way as usize, count);
        self.put(v, EDGE + back(way) as usize, count);
    }

    /// How many records the last step changed, which led from `u` to `v` in the direction `way`.
    pub fn changed(&self, mut u: usize, mut v: usize, way: u8, step: u32) -> u32 {
        let mut sum = 2;
        while let Some(above) = self.node(u, PARENT)
            && self.word(above, LINK_STEP + way as usize) == step
        {
            let beside = self.linked(above, way).expect("a link's step has a link");
            sum += u32::from(above != v) + u32::from(beside != u);
            (u, v) = (above, beside);
        }
        let made = self.word(v, NEED) == step && self.node(v, PARENT) != Some(u);
        sum + u32::from(made)
    }

    pub fn visits(&self, node: usize) -> u32 {
        self.word(node, VISITS)
    }

    /// Clears the links that the step made, from `u` in the direction `way` and up.
    pub fn clear_links(&mut self, mut u: usize, way: u8, step: u32) {
        while self.word(u, LINK_STEP + way as usize) == step {
            let v = self.linked(u, way).expect("a link's step has a link");
            self.clear_link(u, v, way);
            match self.node(u, PARENT) {
                Some(up) => u = up,
                None => return,
            }
        }
    }

    /// Takes the nodes that the step needed off the end of the table, from the node `u` of corner `c` and up.
    pub fn drop_nodes(&mut self, mut u: usize, mut c: Corner, step: u32) {
        while self.word(u, NEED) == step {
            let up = self.node(u, PARENT).expect("the root needs no step");
            self.put(up, c.child_word(), 0);
            self.words[RECORD_WORDS * u..][..RECORD_WORDS].fill(0);
            self.nodes -= 1;
            u = up;
            c = c.parent();
        }
    }
}
