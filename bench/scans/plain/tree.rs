//! A tree of doors, whose nodes are made as participants come.
//!
//! An edge leads to the root, or from a node to its left or right child. Edge 0 leads to the root, edges `2n + 1` and `2n + 2` from node n.

use crate::places::Places;

/// No child, and the end of a walk.
const NONE: u32 = u32::MAX;

pub struct Tree {
    /// The node to which each edge leads; a node is marked as soon as it is made.
    children: Vec<u32>,
    /// The edge at which a walk goes on behind each edge and all that is below it.
    behind: Vec<u32>,
    x: Vec<u64>,
    y: Vec<bool>,
    numbers: Vec<u128>,
}

pub struct Branch {
    edge: usize,
    node: usize,
    stage: u8,
}

#[derive(Clone, Copy)]
pub enum TreeWalk {
    /// Reads the mark of the child behind an edge.
    Mark(u32),
    /// Reads the segment of a node.
    Segment(u32),
}

impl Tree {
    /// The node to which an edge leads, which is made if there is none.
    fn reach(&mut self, edge: usize) -> usize {
        if self.children[edge] == NONE {
            self.children[edge] = self.x.len() as u32;
            self.grow(edge);
        }
        self.children[edge] as usize
    }
    fn grow(&mut self, edge: usize) {
        let left = 2 * self.x.len() as u32 + 1;
        self.children.extend([NONE; 2]);
        self.behind.extend([left + 1, self.behind[edge]]);
        let number = match edge {
            0 => 1,
            _ => 2 * self.numbers[(edge - 1) / 2] + u128::from(edge % 2 == 0),
        };
        self.numbers.push(number);
        self.x.push(0);
        self.y.push(false);
    }
}

impl Places for Tree {
    type Way = Branch;
    type Walk = TreeWalk;

    fn new(m: usize) -> Self {
        let mut tree = Tree {
            children: Vec::with_capacity(4 * m + 1),
            behind: Vec::with_capacity(4 * m + 1),
            x: Vec::with_capacity(2 * m),
            y: Vec::with_capacity(2 * m),
            numbers: Vec::with_capacity(2 * m),
        };
        tree.children.push(NONE);
        tree.behind.push(NONE);
        tree
    }
    /// Those who meet at a node do not all go the same way, so so many nodes have at most half as many participants.
    fn most(m: usize) -> usize {
        2 * m
    }
    fn way() -> Branch {
        Branch { edge: 0, node: 0, stage: 0 }
    }
    #[inline(always)]
    fn place(&mut self, way: &mut Branch, identity: u64) -> Option<usize> {
        match way.stage {
            0 => {
                way.node = self.reach(way.edge);
                way.stage = 1;
                return None;
            }
            1 => {
                self.x[way.node] = identity;
                way.stage = 2;
                return None;
            }
            2 if !self.y[way.node] => {
                way.stage = 3;
                return None;
            }
            2 => way.edge = 2 * way.node + 2,
            3 => {
                self.y[way.node] = true;
                way.stage = 4;
                return None;
            }
            _ if self.x[way.node] == identity => return Some(way.node),
            _ => way.edge = 2 * way.node + 1,
        }
        way.stage = 0;
        None
    }
    fn walk() -> TreeWalk {
        TreeWalk::Mark(0)
    }
    #[inline(always)]
    fn reads(walk: TreeWalk) -> Option<usize> {
        match walk {
            TreeWalk::Mark(_) => None,
            TreeWalk::Segment(node) => Some(node as usize),
        }
    }
    #[inline(always)]
    fn next(&self, walk: TreeWalk) -> Option<TreeWalk> {
        let edge = match walk {
            TreeWalk::Segment(node) => return Some(TreeWalk::Mark(2 * node + 1)),
            TreeWalk::Mark(edge) => edge as usize,
        };
        match self.children[edge] {
            NONE => Some(self.behind[edge]).filter(|it| *it != NONE).map(TreeWalk::Mark),
            node => Some(TreeWalk::Segment(node)),
        }
    }
    fn number(&self, place: usize) -> u128 {
        self.numbers[place]
    }
}
